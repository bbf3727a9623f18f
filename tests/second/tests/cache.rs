//! The plain cache and the plain machine, by hand from sections 4 and 5 of the rules.

use charts::{Chart, Record};
use second::cache::{cost, is_walk, Cache, Costs};
use second::chart;
use second::geometry::Geometry;

const COSTS: Costs = Costs { hit: 1, miss: 10 };

/// An empty cache of 16-byte lines.
fn empty(sets: u32, ways: u8) -> Cache {
    Cache::empty(Geometry { line: 4, sets, ways })
}

/// The sample, read.
fn sample() -> chart::Chart {
    chart::Chart::read(&Chart::sample().bytes()).expect("the sample is accepted")
}

/// What nodes of the sample cost from empty.
fn cost_of(nodes: &[usize]) -> Option<u64> {
    cost(&sample(), empty(0, 2), COSTS, nodes)
}

#[test]
fn a_touched_block_is_first_and_the_others_follow_as_before() {
    let mut cache = empty(0, 4);
    for block in [1, 2, 3, 4] {
        assert!(!cache.touch(block));
    }
    assert_eq!(cache.list(1), [4, 3, 2, 1]);
    assert!(cache.touch(2));
    assert_eq!(cache.list(1), [2, 4, 3, 1]);
    assert!(cache.touch(2));
    assert_eq!(cache.list(1), [2, 4, 3, 1]);
}

#[test]
fn what_stands_past_the_ways_is_gone() {
    let mut cache = empty(0, 2);
    assert_eq!([1, 2, 3, 1].map(|block| cache.touch(block)), [false; 4]);
    assert_eq!(cache.list(1), [1, 3]);
    let mut cache = empty(0, 1);
    assert_eq!(
        [1, 1, 2, 1].map(|block| cache.touch(block)),
        [false, true, false, false]
    );
}

#[test]
fn other_sets_do_not_change() {
    let mut cache = empty(1, 1);
    assert_eq!(
        [4, 5, 4, 6, 5].map(|block| cache.touch(block)),
        [false, false, true, false, true]
    );
    assert_eq!((cache.list(0), cache.list(1)), (&[6][..], &[5][..]));
}

#[test]
fn an_age_is_a_place_from_0_and_an_absent_block_has_the_ways() {
    let mut cache = empty(0, 3);
    for block in [1, 2] {
        cache.touch(block);
    }
    assert_eq!([2, 1, 9].map(|block| cache.age(block)), [0, 1, 3]);
}

#[test]
fn a_walk_begins_at_the_entry_and_follows_arrows() {
    for nodes in [&[0][..], &[0, 1], &[0, 1, 1, 1], &[0, 1, 2]] {
        assert!(is_walk(&sample(), nodes) && cost_of(nodes).is_some(), "{nodes:?}");
    }
    for nodes in [
        &[][..],
        &[1],
        &[1, 2],
        &[3],
        &[0, 0],
        &[0, 2],
        &[0, 1, 2, 2],
        &[0, 1, 0],
        &[0, 3, 1],
    ] {
        assert!(!is_walk(&sample(), nodes), "{nodes:?}");
        assert_eq!(cost_of(nodes), None, "{nodes:?}");
    }
}

#[test]
fn the_sample_with_ten_turns_costs_20() {
    let turns = [0, 1, 1, 1, 1, 1, 1, 1, 1, 1, 1, 2];
    assert_eq!(cost_of(&turns), Some(20));
}

#[test]
fn a_bare_step_costs_nothing_and_each_reference_its_own() {
    assert_eq!(cost_of(&[0]), Some(0));
    assert_eq!(cost_of(&[0, 1]), Some(10));
    assert_eq!(cost_of(&[0, 1, 2]), Some(11));
}

#[test]
fn a_write_costs_what_a_read_does() {
    let bytes = Chart::of(vec![
        Record::write(0x00).to(1),
        Record::read(0x0F).to(2),
        Record::write(0x10),
    ])
    .bytes();
    let chart = chart::Chart::read(&bytes).expect("the chart is accepted");
    assert_eq!(cost(&chart, empty(0, 2), COSTS, &[0, 1, 2]), Some(21));
}

#[test]
fn the_contents_found_count() {
    let mut found = empty(0, 2);
    found.touch(0);
    assert_eq!(cost(&sample(), found.clone(), COSTS, &[0, 1, 2]), Some(2));
    found.touch(7);
    assert_eq!(cost(&sample(), found.clone(), COSTS, &[0, 1, 2]), Some(2));
    found.touch(8);
    assert_eq!(cost(&sample(), found, COSTS, &[0, 1, 2]), Some(11));
}
