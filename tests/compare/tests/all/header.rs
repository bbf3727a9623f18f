//! Every value of every header field, one at a time, and every shape of a cache.

use charts::random_charts::of_nodes;
use charts::{Chart, Header, Record};
use compare::ask::READ;
use compare::features::{GEOMETRIES, GEOMETRY};
use compare::group::Group;
use second::limits::NODES;

/// The highest number of nodes that the header's field can hold.
const HIGHEST: usize = (1 << 12) - 1;

/// Sets a field of a header.
type Set = fn(&mut Header, u64);

/// Each field with the number of values that it can hold.
const FIELDS: [(u64, Set); 9] = [
    (1 << 8, |header, value| header.edition = value),
    (1 << 4, |header, value| header.line = value),
    (1 << 4, |header, value| header.sets = value),
    (1 << 4, |header, value| header.ways = value),
    (1 << 2, |header, value| header.start = value),
    (1 << 10, |header, value| header.spare = value),
    (1 << 12, |header, value| header.nodes = value),
    (1 << 12, |header, value| header.entry = value),
    (1 << 8, |header, value| header.tail = value),
];

/// The sample, one node alone, and the largest number of nodes.
fn bases() -> [Chart; 3] {
    let largest: Vec<u64> = (0..NODES as u64).map(|node| node % 3 * 16).collect();
    [
        Chart::sample(),
        Chart::of(vec![Record::read(0)]),
        Chart::straight(&largest),
    ]
}

#[test]
fn every_value_of_every_header_field() {
    let mut group = Group::of("header fields");
    for base in bases() {
        for (values, set) in FIELDS {
            for value in 0..values {
                let mut chart = base.clone();
                set(&mut chart.header, value);
                group.trial(&chart.bytes());
            }
        }
    }
    let tally = group.end();
    tally.expect_each(READ, 0..=0, 300);
    tally.expect_each(READ, 2..=8, 6);
}

#[test]
fn every_number_of_nodes_with_as_many_records() {
    let mut group = Group::of("numbers of nodes");
    for nodes in 0..=HIGHEST {
        let mut chart = Chart::steps(nodes);
        for entry in [0, nodes.saturating_sub(1), nodes, nodes + 1] {
            chart.header.entry = entry.min(HIGHEST) as u64;
            group.trial(&chart.bytes());
        }
    }
    let tally = group.end();
    // none, and each number above the most, are refused whatever the entry is
    let (allowed, others) = (NODES as u64, (HIGHEST + 1 - NODES) as u64);
    assert_eq!(tally.count(READ, 0), 2 * allowed);
    assert_eq!(tally.count(READ, 5), 4 * others);
    assert_eq!(tally.count(READ, 6), 2 * allowed);
}

#[test]
fn every_shape_allowed_or_not_with_every_start_code() {
    let mut group = Group::of("shapes, allowed or not");
    for code in 0..1 << 14 {
        let mut chart = Chart::sample().shaped(code >> 6 & 15, code >> 2 & 15, code & 3);
        chart.header.line = code >> 10;
        group.trial(&chart.bytes());
    }
    let tally = group.end();
    tally.expect_each(READ, 0..=0, GEOMETRIES as u64);
    tally.expect_each(READ, 3..=4, 1_000);
    tally.expect_each(GEOMETRY, 0..=GEOMETRIES - 1, 1);
}

#[test]
fn every_allowed_shape_with_random_records() {
    let mut group = Group::of("allowed shapes");
    for line in 2..=8 {
        for (sets, ways) in (0..=8).flat_map(|sets| (1..=8).map(move |ways| (sets, ways))) {
            for start in [0, 1].repeat(4) {
                let nodes = group.random.within(1, 20);
                let mut chart = of_nodes(&mut group.random, nodes).shaped(sets, ways, start);
                chart.header.line = line;
                group.trial(&chart.bytes());
            }
        }
    }
    group.end().expect_each(GEOMETRY, 0..=GEOMETRIES - 1, 4);
}
