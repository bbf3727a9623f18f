//! Every value of a record's small fields, with each other or by kind, and both sides of each boundary of its wide ones.

use charts::{Chart, Record};
use compare::ask::READ;
use compare::group::Group;
use compare::sizes::{NO_SIZE, PAST_THE_END, SIZED_STEP};
use compare::twins::TWINS;
use second::limits::NODES;

const HIGHEST: u64 = (1 << 32) - 1;

/// Records of a chart of so many nodes, with and without faults.
fn records(nodes: u64) -> impl Iterator<Item = Record> {
    let arrows = move || [0, nodes - 1, nodes, 4095];
    let fields = (0..4).flat_map(|kind| (0..4).map(move |outs| (kind, outs)));
    fields.flat_map(move |(kind, outs)| {
        arrows().into_iter().flat_map(move |first| {
            arrows().into_iter().flat_map(move |second| {
                [0, 1, HIGHEST].into_iter().flat_map(move |address| {
                    [0, 2, 3, 15].into_iter().map(move |size| Record {
                        kind,
                        address,
                        outs,
                        first,
                        second,
                        size,
                    })
                })
            })
        })
    })
}

/// Such a record as the first, a middle or the last of so many nodes; the other nodes lead on.
fn sweep(group: &mut Group, nodes: u64) {
    let reads: Vec<u64> = (0..nodes).map(|node| node % 2 * 16).collect();
    let base = Chart::straight(&reads);
    for record in records(nodes) {
        let mut places = vec![0, nodes / 2, nodes - 1];
        places.dedup();
        for place in places {
            let mut chart = base.clone();
            chart.records[place as usize] = record;
            group.trial(&chart.bytes());
        }
    }
}

#[test]
fn every_record_at_its_boundaries_in_small_charts() {
    let mut group = Group::of("records of small charts");
    for nodes in 1..=4 {
        sweep(&mut group, nodes);
    }
    let tally = group.end();
    // a step, and reads and writes of a byte at three addresses and of four at two; with 1, 2, 3 and 4 nodes in 1, 2, 3 and 3 places; the ends
    // are 0 twice where there is one node
    assert_eq!(tally.count(READ, 0), (1 + 2 * 5) * (8 + 2 * 5 + 3 * 5 + 3 * 5));
    assert_eq!(tally.count(TWINS[0], 0), (1 + 2 * 5) * (4 + 2 * 2 + 3 * 2 + 3 * 2));
    tally.expect_each(READ, 9..=9, 10_000);
}

#[test]
fn every_record_at_its_boundaries_in_the_largest_chart() {
    let mut group = Group::of("records of the largest chart");
    sweep(&mut group, NODES as u64);
    let tally = group.end();
    tally.expect_each(READ, 0..=0, 100);
    tally.expect_each(READ, 9..=9, 1_000);
}

/// How many ways there are to have arrows in a chart of so many nodes: none, one to each, two to each two, in both orders.
fn ways_to_lead_on(nodes: u64) -> u64 {
    1 + nodes + nodes * (nodes - 1)
}

#[test]
fn every_two_arrows_of_small_charts() {
    let mut group = Group::of("two arrows");
    let mut accepted = 0;
    for nodes in 1..=5 {
        for place in 0..nodes {
            for bare in [Record::step(), Record::read(0x20), Record::write(0x20)] {
                for (outs, first) in (0..4).flat_map(|outs| (0..=nodes).map(move |first| (outs, first))) {
                    for second in 0..=nodes {
                        let mut chart = Chart::steps(nodes as usize);
                        chart.records[place as usize] = Record {
                            outs,
                            first,
                            second,
                            ..bare
                        };
                        group.trial(&chart.bytes());
                    }
                }
                accepted += ways_to_lead_on(nodes);
            }
        }
    }
    let tally = group.end();
    assert_eq!(tally.count(READ, 0), accepted);
    assert_eq!(tally.count(TWINS[0], 0), 3 * (1 + 4 + 9 + 16 + 25));
}

#[test]
fn each_bit_and_each_two_bits_of_the_sample_flipped() {
    let mut group = Group::of("flipped bits");
    let sample = Chart::sample().bytes();
    for bit in 0..sample.len() * 8 {
        for other in 0..=bit {
            let mut chart = sample.clone();
            chart[bit / 8] ^= 0x80 >> (bit % 8);
            if other != bit {
                chart[other / 8] ^= 0x80 >> (other % 8);
            }
            group.trial(&chart);
        }
    }
    group.end().expect_each(READ, 2..=9, 10);
}

#[test]
fn every_size_code_by_kind() {
    let mut group = Group::of("size codes");
    for (kind, size) in (0..4).flat_map(|kind| (0..16).map(move |size| (kind, size))) {
        for (address, place) in [(0, 0), (0x0F, 1), (0x40, 2)] {
            let mut chart = Chart::straight(&[0x00, 0x10, 0x20]);
            let record = Record {
                kind,
                address: if kind == 0 { 0 } else { address },
                ..Record::step().sized(size)
            };
            chart.records[place] = chart.records[place].doing(record);
            group.trial(&chart.bytes());
        }
    }
    let tally = group.end();
    assert_eq!(tally.count(READ, 0), 3 * (1 + 3 + 3));
    assert_eq!(tally.count(READ, 9), 3 * (15 + 13 + 13 + 16));
    tally.expect_each(SIZED_STEP, 1..=15, 3);
    tally.expect_each(NO_SIZE, 3..=15, 6);
}

#[test]
fn the_last_addresses_with_every_size_and_every_line() {
    let mut group = Group::of("the last addresses");
    for (line, size) in (2..=8).flat_map(|line| (0..3).map(move |size| (line, size))) {
        for less in 0..1 << (line + 1) {
            for reference in [Record::read(HIGHEST - less), Record::write(HIGHEST - less)] {
                let mut chart = Chart::of(vec![reference.sized(size), Record::read(HIGHEST - less)]).in_a_row();
                chart.header.line = line;
                group.trial(&chart.bytes());
            }
        }
    }
    let tally = group.end();
    // of two bytes the last address is past the end, of four the last three
    assert_eq!(tally.count(READ, 9), 2 * 7 * (1 + 3));
    assert_eq!([1, 2].map(|size| tally.count(PAST_THE_END, size)), [2 * 7, 2 * 7 * 3]);
    assert_eq!(
        tally.count(READ, 0),
        2 * (3 * (8 + 16 + 32 + 64 + 128 + 256 + 512) - 7 * (1 + 3))
    );
}

#[test]
fn addresses_on_both_sides_of_a_line() {
    let mut group = Group::of("addresses");
    for line in 2..=8 {
        for sets in 0..=8 {
            let (line_size, round) = (1 << line, 1 << (line + sets));
            let addresses = [0, line_size, round, round * 3, 1 << 31, HIGHEST + 1 - round];
            for address in addresses {
                let mut chart = Chart::straight(&[
                    address,
                    address + line_size - 1,
                    (address + HIGHEST) & HIGHEST,
                    (address + line_size) & HIGHEST,
                    (address + round) & HIGHEST,
                    address,
                ])
                .shaped(sets, 1 + sets % 3, sets % 2);
                chart.header.line = line;
                group.trial(&chart.bytes());
            }
        }
    }
    group.end().expect_each(READ, 0..=0, 7 * 9 * 6);
}
