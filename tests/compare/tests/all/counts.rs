//! Every number of nodes, and every number of blocks up to the most and beyond.

use charts::random_blocks::of_blocks;
use charts::random_charts::of_nodes;
use charts::{Chart, Record};
use compare::ask::READ;
use compare::features::{BLOCKS, NODES};
use compare::group::Group;
use compare::sizes::TOO_MANY;
use second::limits;

const MOST: u64 = limits::BLOCKS as u64;

#[test]
fn every_number_of_nodes() {
    let mut group = Group::of("every number of nodes");
    for nodes in 1..=limits::NODES {
        let before = group.tally.count(NODES, nodes);
        while group.tally.count(NODES, nodes) < before + 3 {
            let chart = of_nodes(&mut group.random, nodes as u64).bytes();
            group.trial(&chart);
        }
    }
    group.end().expect_each(NODES, 1..=limits::NODES, 3);
}

#[test]
fn every_number_of_blocks() {
    let mut group = Group::of("every number of blocks");
    for blocks in 0..=MOST + 26 {
        for _ in 0..3 {
            let nodes = group.random.within(u64::max(blocks, 1), 2 * MOST + 2);
            let chart = of_blocks(&mut group.random, nodes, blocks).bytes();
            group.trial(&chart);
        }
    }
    let tally = group.end();
    tally.expect_each(BLOCKS, 0..=limits::BLOCKS, 3);
    tally.expect_each(READ, 10..=10, 3 * 26);
}

#[test]
fn every_number_of_blocks_of_which_one_node_brings_two() {
    let mut group = Group::of("two blocks of one node");
    for blocks in 2..=MOST + 2 {
        for place in [0, (blocks - 2) / 2, blocks - 2] {
            // far from the others, which are read alone
            let both = Record::read(u64::from(u32::MAX) / 2).sized(2);
            let mut records: Vec<Record> = (0..blocks - 2).map(|block| Record::read(block * 16)).collect();
            records.insert(place as usize, both);
            group.trial(&Chart::of(records).in_a_row().bytes());
        }
    }
    let tally = group.end();
    tally.expect_each(BLOCKS, 2..=limits::BLOCKS, 3);
    // the two are the last that fits and one too many, or the first two of all, and then a node behind them brings one too many
    assert_eq!([0, 1, 2, 3].map(|kind| tally.count(TOO_MANY, kind)), [4, 1, 0, 1]);
}

/// The last node's block is looked for among all the others: it is each of them in turn, and each that could stand between two of them,
/// before the first or behind the last. They are far apart, so that their differences are large.
#[test]
fn every_place_in_every_list() {
    let mut group = Group::of("every place in every list");
    let apart = u64::from(u32::MAX) / (2 * MOST + 1);
    for blocks in 0..=MOST {
        for last in 0..=2 * blocks {
            let mut numbers: Vec<u64> = (0..blocks).map(|block| 2 * block + 1).collect();
            group.random.mix(&mut numbers);
            numbers.push(last);
            let addresses: Vec<u64> = numbers.into_iter().map(|number| number * apart).collect();
            group.trial(&Chart::straight(&addresses).bytes());
        }
    }
    let tally = group.end();
    for blocks in 1..=limits::BLOCKS {
        tally.expect_each(BLOCKS, blocks..=blocks, 2 * blocks as u64);
    }
    tally.expect_each(READ, 10..=10, MOST + 1);
}
