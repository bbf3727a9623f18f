//! What a chart is written from: every value of every small field, and both sides of each boundary up to the highest number.

use charts::random::Random;
use charts::{Chart, Record};
use compare::ask::WRITE;
use compare::features::GEOMETRIES;
use compare::given::{Given, ADDRESSES, FIRSTS, HEADER_WIDTHS, KINDS, LIST_WIDTHS, OUTS, SECONDS, SIZES};
use compare::given_lent::LentGiven;
use compare::group::Group;
use compare::writing::READ_BACK;
use second::limits::{BLOCKS, NODES};
use std::collections::HashSet;
use veilbuzz::write;

/// Both sides of each power of two, each power with the bits of this number, and the highest numbers.
fn edges(number: u64) -> impl Iterator<Item = u64> {
    let around = move |power: u64| [power - 1, power, power + 1, power | number];
    (0..64)
        .flat_map(move |bit| around(1 << bit))
        .chain([u64::MAX - 3, u64::MAX])
}

/// All that a field of up to 12 bits can hold, and the edges.
fn values(number: u64, width: u32) -> Vec<u64> {
    let held = if width <= 12 { 1 << width } else { 0 };
    let mut values: Vec<u64> = (0..held).chain(edges(number)).collect();
    values.sort_unstable();
    values.dedup();
    values
}

/// The sample, and a node alone.
fn small() -> [Given; 2] {
    [Chart::sample(), Chart::of(vec![Record::write(0x20).to(0)])].map(|chart| Given::of_chart(&chart))
}

/// The most nodes and the most blocks.
fn largest() -> Given {
    let reads: Vec<u64> = (0..NODES).map(|node| (node % BLOCKS) as u64 * 16).collect();
    Given::of_chart(&Chart::straight(&reads))
}

#[test]
fn every_number_of_the_header() {
    let mut group = Group::of("a header's numbers, written");
    for base in small() {
        for (place, width) in HEADER_WIDTHS.into_iter().enumerate() {
            for value in values(base.header[place], width) {
                let mut given = base.clone();
                given.header[place] = value;
                group.write(&given);
            }
        }
    }
    let tally = group.end();
    // the allowed L, S and A, both starts and one N, for each; three entries and one
    assert_eq!(tally.count(WRITE, 0), 2 * (7 + 9 + 8 + 2 + 1) + 3 + 1);
    for number in [3, 4, 5, 6, 8] {
        tally.expect_each(WRITE, number..=number, 100);
    }
}

#[test]
fn every_number_of_a_node() {
    let mut group = Group::of("a node's numbers, written");
    let records = vec![
        Record::step().to(1),
        Record::read(0x0E).sized(2).to(1).to(2),
        Record::write(0x40),
    ];
    let base = Given::of_chart(&Chart::of(records));
    for (list, width) in LIST_WIDTHS.into_iter().enumerate() {
        for node in 0..3 {
            for value in values(base.lists[list][node], width) {
                let mut given = base.clone();
                given.lists[list][node] = value;
                group.write(&given);
            }
        }
    }
    let tally = group.end();
    tally.expect_each(READ_BACK, 0..=0, 100);
    tally.expect_each(WRITE, 9..=9, 20_000);
}

#[test]
fn every_edge_in_the_largest_chart() {
    let mut group = Group::of("the largest chart's numbers, written");
    let base = largest();
    for place in 0..6 {
        for value in edges(base.header[place]) {
            let mut given = base.clone();
            given.header[place] = value;
            group.write(&given);
        }
        for node in [0, NODES / 2, NODES - 1] {
            for value in edges(base.lists[place][node]) {
                let mut given = base.clone();
                given.lists[place][node] = value;
                group.write(&given);
            }
        }
    }
    let tally = group.end();
    tally.expect_each(READ_BACK, 0..=0, 100);
    for number in [3, 4, 5, 6, 8, 9] {
        tally.expect_each(WRITE, number..=number, 20);
    }
}

/// All six numbers of a node at their boundaries and past them, with each other.
#[test]
fn every_record_at_its_boundaries() {
    let mut group = Group::of("records, written");
    let wide = 1 << 32;
    let arrows = [0, 1, 2, (1 << 12) + 1, wide + 1, u64::MAX];
    for (kind, size) in [0, 1, 2, 3, wide + 1]
        .iter()
        .flat_map(|&kind| [0, 1, 2, 3, wide, u64::MAX].map(|size| (kind, size)))
    {
        for address in [0, 1, wide - 4, wide - 2, wide - 1, wide, u64::MAX - 1, u64::MAX] {
            for outs in [0, 1, 2, 3, 4, wide + 1] {
                for (first, second) in arrows.iter().flat_map(|&first| arrows.map(|second| (first, second))) {
                    let mut given = Given::of_chart(&Chart::steps(2));
                    for (list, number) in [
                        (KINDS, kind),
                        (ADDRESSES, address),
                        (SIZES, size),
                        (OUTS, outs),
                        (FIRSTS, first),
                        (SECONDS, second),
                    ] {
                        given.lists[list][1] = number;
                    }
                    group.write(&given);
                }
            }
        }
    }
    let tally = group.end();
    // a step, and reads and writes of a byte at five addresses, of two at four and of four at three; no arrow, one to each node, two to both
    assert_eq!(tally.count(WRITE, 0), (1 + 2 * (5 + 4 + 3)) * (1 + 2 + 2));
    assert_eq!(tally.count(WRITE, 9), tally.charts() - tally.count(WRITE, 0));
}

/// Every shape of a cache and both starts, with all arrows of a node alone and some of what it can do.
#[test]
fn no_two_of_many_small_charts_are_written_alike() {
    let mut written = HashSet::new();
    let does = [
        Record::step(),
        Record::read(0),
        Record::write(0),
        Record::read(1 << 31),
        Record::read(0).sized(2),
    ];
    for record in does.into_iter().flat_map(|record| [record, record.to(0)]) {
        for code in 0..7 * 9 * 8 * 2 {
            let mut chart = Chart::of(vec![record]).shaped(code / 2 % 9, code / 18 % 8 + 1, code % 2);
            chart.header.line = code / 144 + 2;
            let lent = LentGiven::of(&mut Random::new(code), &Given::of_chart(&chart));
            let mut bytes = [0; 16];
            assert_eq!(write(lent.heading(), &lent.node_lists(), &mut bytes), Ok(16));
            assert!(written.insert(bytes), "{chart:?} is written as another was");
        }
    }
    assert_eq!(written.len(), 10 * GEOMETRIES);
}

#[test]
fn what_bytes_hold_is_what_they_were_made_of() {
    for chart in [Chart::sample(), Chart::straight(&[0x00, 0x0E, 0x1F, 0x20])] {
        assert_eq!(Given::of_bytes(&chart.bytes()), Some(Given::of_chart(&chart)));
    }
}

#[test]
fn bytes_that_no_numbers_have_are_written_from_none() {
    let changes: [fn(&mut Vec<u8>); 5] = [
        |bytes| bytes[0] = 2,
        |bytes| bytes[3] = 1,
        |bytes| bytes[7] = 0x80,
        |bytes| bytes.truncate(31),
        |bytes| bytes.truncate(7),
    ];
    for change in changes {
        let mut bytes = Chart::sample().bytes();
        change(&mut bytes);
        assert_eq!(Given::of_bytes(&bytes), None);
    }
}
