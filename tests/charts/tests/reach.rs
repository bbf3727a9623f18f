//! So that what is drawn is not idle: how many nodes of random charts are reached, how many touch two blocks, what classes their touches have, and
//! that an edge is one.

use charts::random::Random;
use charts::random_charts::whole;
use charts::random_edges::{at_an_edge, EDGES};
use charts::sizes::touched_before;
use second::chart::Chart;
use second::lending::Lending;
use second::limits::BLOCKS;
use std::collections::BTreeMap;

/// How many nodes of an accepted chart are reached.
fn reached(bytes: &[u8], chart: &Chart) -> usize {
    let marks = Lending::analysed(bytes, chart).marks;
    marks.iter().filter(|&&mark| mark == 1).count()
}

#[test]
fn most_nodes_are_reached() {
    let mut random = Random::new(1);
    let (mut nodes, mut marked) = (0, 0);
    for _ in 0..2_000 {
        let bytes = whole(&mut random).bytes();
        let Ok(chart) = Chart::read(&bytes) else { continue };
        nodes += chart.nodes.len();
        marked += reached(&bytes, &chart);
    }
    assert!(10 * marked >= 7 * nodes, "{marked} of {nodes} nodes are reached");
}

#[test]
fn hits_misses_unsure_and_kept_touches_are_often_each() {
    let mut random = Random::new(7);
    let (mut charts, mut with) = (0, [0; 6]);
    for _ in 0..2_000 {
        let bytes = whole(&mut random).bytes();
        let Ok(chart) = Chart::read(&bytes) else { continue };
        let lending = Lending::analysed(&bytes, &chart);
        charts += 1;
        for (class, with) in with.iter_mut().enumerate() {
            *with += usize::from(lending.classes.contains(&(class as u8)));
        }
    }
    assert!(
        with.iter().all(|with| 5 * with >= charts),
        "of {charts} charts {with:?} have each class"
    );
}

#[test]
fn whole_charts_have_no_fault_but_perhaps_a_block_too_many() {
    let mut random = Random::new(3);
    for _ in 0..5_000 {
        let bytes = whole(&mut random).bytes();
        let fault = Chart::read(&bytes).err().filter(|refusal| refusal.number != 10);
        assert_eq!(fault, None);
    }
}

#[test]
fn charts_at_an_edge_have_just_so_many_blocks() {
    let mut random = Random::new(2);
    let mut times = BTreeMap::new();
    for _ in 0..2_000 {
        let bytes = at_an_edge(&mut random).bytes();
        let blocks = match Chart::read(&bytes) {
            Ok(chart) => chart.blocks.len(),
            Err(refusal) => {
                assert_eq!(refusal.number, 10);
                BLOCKS + 1
            }
        };
        *times.entry(blocks as u64).or_insert(0) += 1;
    }
    assert_eq!(times.keys().copied().collect::<Vec<u64>>(), EDGES);
    assert!(times.values().all(|&times| times >= 50), "{times:?}");
}

#[test]
fn many_nodes_touch_two_blocks_and_many_charts_have_none_that_does() {
    let mut random = Random::new(4);
    let (mut charts, mut without, mut all, mut two) = (0, 0, 0, 0);
    for _ in 0..2_000 {
        let Ok(chart) = Chart::read(&whole(&mut random).bytes()) else {
            continue;
        };
        let making = |touch: usize| chart.nodes.iter().filter(|node| node.touches[touch].is_some()).count();
        charts += 1;
        without += usize::from(making(1) == 0);
        all += making(0);
        two += making(1);
    }
    assert!(12 * two >= all, "{two} of {all} references touch two blocks");
    assert!(
        3 * without >= charts,
        "of {charts} charts {without} have no node that does"
    );
}

#[test]
fn references_of_more_than_a_byte_come_to_both_ends() {
    let mut random = Random::new(5);
    let (mut first, mut last) = (0, 0);
    for _ in 0..2_000 {
        let records = whole(&mut random).records;
        let longer = || records.iter().filter(|record| record.size > 0);
        first += usize::from(longer().any(|record| record.address == 0));
        last += usize::from(longer().any(|record| record.address + (1 << record.size) == 1 << 32));
    }
    assert!(
        first >= 100 && last >= 100,
        "{first} begin with the first byte, {last} end with the last"
    );
}

#[test]
fn one_node_often_brings_the_last_block_that_fits_and_one_too_many() {
    let mut random = Random::new(6);
    let (mut refused, mut both) = (0, 0);
    for _ in 0..2_000 {
        let bytes = at_an_edge(&mut random).bytes();
        if let Err(refusal) = Chart::read(&bytes) {
            refused += 1;
            both += usize::from(touched_before(&bytes, refusal.place).len() == BLOCKS - 1);
        }
    }
    assert!(
        16 * both >= refused && 2 * both <= refused,
        "{both} of {refused} refused charts"
    );
}
