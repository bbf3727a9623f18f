//! Blocks that stay, and that almost do: rings around the ways, choices, every two nodes, and tables that mark what no walk reaches.

use charts::{Chart, Record};
use compare::ask::{self, READ, TOTAL};
use compare::bounds::Question;
use compare::features::CLASS;
use compare::group::Group;
use compare::kept::{count_marked, MARKED};
use compare::table::{LentTable, Table};
use second::limits;
use veilbuzz::Costs;

const MOST: u64 = limits::BLOCKS as u64;

/// Three blocks of one set, and of two of two sets.
const BLOCKS: [u64; 3] = [0x00, 0x10, 0x20];

/// A read of the last byte of a block and of the first byte behind it.
fn over(block: u64) -> Record {
    Record::read(block + 15).sized(1)
}

/// As many blocks of one of 2^`sets` sets, read in turn, entered at the first; and reads that no walk comes to, of as many blocks below them.
fn ring(blocks: u64, sets: u64, below: u64) -> Chart {
    let read = |block: u64| Record::read(block << (sets + 4));
    let ring = (0..blocks).map(|place| read(below + place).to((place + 1) % blocks));
    Chart::of(ring.chain((0..below).map(read)).collect())
}

/// As many as the ways are kept, from either start. One more is not: from an unknown start the first are unsure and the last miss, from an empty
/// one all miss. They are the first blocks of the list, or the last of the most.
#[test]
fn rings_of_as_many_blocks_as_ways_and_more_or_fewer() {
    let mut group = Group::of("rings");
    for ways in 1..=8 {
        for blocks in 1..=ways + 3 {
            for (sets, below) in [(0, 0), (3, 0), (8, 0), (0, MOST - blocks)] {
                for start in [0, 1] {
                    group.trial(&ring(blocks, sets, below).shaped(sets, ways, start).bytes());
                }
            }
        }
    }
    let tally = group.end();
    assert_eq!(tally.count(READ, 0), 8 * (1..=8).map(|ways| ways + 3).sum::<u64>());
    // of each number of ways so many have no more blocks, and three have
    assert_eq!(tally.count(CLASS[0], 5), 8 * (1..=8).sum::<u64>());
    assert_eq!([2, 3].map(|class| tally.count(CLASS[0], class)), [8 * 3 * 8, 4 * 3 * 8]);
}

/// Block a, then one of two others, so many times, and back to it. Ages alone would keep it: each choice finds its block there already by one of
/// the walks before it, which is not the one that makes a miss.
#[test]
fn choices_between_two_blocks() {
    let mut group = Group::of("choices");
    for choices in 1..=4 {
        for (ways, start) in (1..=4).flat_map(|ways| [0, 1].map(|start| (ways, start))) {
            let mut records = vec![Record::read(BLOCKS[0]).to(1).to(2)];
            for choice in 0..choices {
                let next = 2 * choice + 3;
                records.extend([1, 2].map(|other| {
                    let read = Record::read(BLOCKS[other]);
                    if choice + 1 < choices {
                        read.to(next).to(next + 1)
                    } else {
                        read.to(0)
                    }
                }));
            }
            for _ in 0..10 {
                group.trial(&Chart::of(records.clone()).shaped(0, ways, start).bytes());
            }
        }
    }
    let tally = group.end();
    assert_eq!(tally.count(READ, 0), 4 * 4 * 2 * 10);
    // with three ways or more all three blocks stay; with fewer none does, and something is unsure, but for one choice with one way from empty
    assert_eq!(tally.count(CLASS[0], 5), 4 * 2 * 2 * 10);
    assert_eq!(tally.count(CLASS[0], 3), 4 * 2 * 2 * 10 - 10);
}

/// What two nodes may do, and where they may lead.
#[test]
fn every_two_nodes() {
    let mut group = Group::of("every two nodes");
    let [a, b, c] = BLOCKS.map(Record::read);
    let doing = [Record::step(), a, b, c, over(BLOCKS[0]), over(BLOCKS[1])];
    let arrows: [&[u64]; 5] = [&[], &[0], &[1], &[0, 1], &[1, 0]];
    let nodes: Vec<Record> = doing
        .into_iter()
        .flat_map(|doing| arrows.map(|arrows| arrows.iter().fold(doing, |record, &target| record.to(target))))
        .collect();
    for (one, two) in nodes.iter().flat_map(|&one| nodes.iter().map(move |&two| (one, two))) {
        for (sets, ways, start) in [
            (0, 1, 0),
            (0, 1, 1),
            (0, 2, 0),
            (0, 2, 1),
            (0, 3, 0),
            (1, 1, 0),
            (1, 2, 1),
        ] {
            group.trial(&Chart::of(vec![one, two]).shaped(sets, ways, start).bytes());
        }
    }
    let tally = group.end();
    assert_eq!(tally.count(READ, 0), 30 * 30 * 7);
    for touch in CLASS {
        tally.expect_each(touch, 0..=5, 100);
    }
}

/// Nodes 2 and 3 lead into a loop, and no walk comes to them; every table is the loosest, with each choice of ceilings.
#[test]
fn tables_that_mark_what_no_walk_reaches() {
    let mut group = Group::of("marks where no walk comes");
    for (ways, start) in (1..=3).flat_map(|ways| [0, 1].map(|start| (ways, start))) {
        let records = vec![
            Record::read(BLOCKS[0]).to(0).to(1),
            Record::step(),
            Record::read(BLOCKS[0]).to(3),
            over(BLOCKS[1]).to(0),
        ];
        let chart = Chart::of(records).shaped(0, ways, start).bytes();
        group.hold(&chart, |random, tally, chart| {
            let read = second::chart::Chart::read(chart).expect("the chart is accepted");
            let table = LentTable::of(random, &Table::uniform(4, 3, 1, ways as u8, 0));
            for code in 0..3_usize.pow(4) {
                let question = Question {
                    costs: Costs { hit: 1, miss: 10 },
                    floors: vec![0; 4],
                    ceilings: (0..4).map(|node| [0, 1, 7][code / 3_usize.pow(node) % 3]).collect(),
                };
                let bounds = question.lent(random);
                let answer = ask::total(tally, chart, &table, question.costs, &bounds)?;
                assert!(answer.is_ok());
                count_marked(tally, &read, &table, &[1, 1, 0, 0], &question.ceilings);
            }
            Ok(())
        });
    }
    let tally = group.end();
    assert_eq!(tally.count(TOTAL, 0), 6 * 81);
    // all but those with ceiling 0 at both nodes; and of these, those with none at node 2 or some at node 0 and none at node 3
    assert_eq!(tally.count(MARKED[0], 0), 6 * 72);
    assert_eq!(tally.count(MARKED[1], 0), 6 * 60);
}
