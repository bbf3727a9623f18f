//! A chart taken apart: every node of it and some that there are not, and its blocks in lists of each length around the right one.

use charts::random_blocks::of_blocks;
use charts::random_charts::of_nodes;
use compare::apart::THERE;
use compare::ask::{self, BLOCKS, NODE};
use compare::group::Group;
use compare::guarded::{word, Guarded};
use compare::raw_parts::{self, NODE_ROOM};
use second::limits;

/// A random chart of so many nodes that is accepted.
fn accepted(group: &mut Group, nodes: usize) -> Vec<u8> {
    loop {
        let chart = of_nodes(&mut group.random, nodes as u64).bytes();
        if veilbuzz::read(&chart).is_ok() {
            return chart;
        }
    }
}

#[test]
fn every_node_and_what_is_past_the_last() {
    let mut group = Group::of("every node");
    let sizes: Vec<usize> = (1..=40)
        .chain([255, 256, 257, limits::NODES - 1, limits::NODES])
        .collect();
    for &nodes in &sizes {
        let chart = accepted(&mut group, nodes);
        group.hold(&chart, |random, tally, chart| {
            let past = [
                1 << 12,
                1 << 16,
                1 << 32,
                1 << 60,
                1 << 61,
                usize::MAX - nodes,
                usize::MAX,
            ];
            // those that come back to a node if some of their bits are lost
            let wide = past.into_iter().flat_map(|past| [past, past.wrapping_add(nodes - 1)]);
            for number in (0..nodes + 3).chain(wide.filter(|&number| number >= nodes)) {
                let node = ask::node(tally, chart, number)?;
                tally.at(THERE, (node != Ok(None)).into());
                raw_parts::node(random, tally, chart, number)?;
            }
            Ok(())
        });
    }
    let tally = group.end();
    assert_eq!(tally.count(THERE, 1), sizes.iter().sum::<usize>() as u64);
    assert_eq!(tally.count(NODE, 0), tally.count(THERE, 0) + tally.count(THERE, 1));
    tally.expect_each(NODE_ROOM, 0..=3, 300);
}

#[test]
fn every_number_of_blocks_in_lists_of_each_length() {
    let mut group = Group::of("lists of blocks");
    for blocks in 0..=limits::BLOCKS + 3 {
        let nodes = blocks as u64 + group.random.within(1, 9);
        let chart = of_blocks(&mut group.random, nodes, blocks as u64).bytes();
        group.hold(&chart, |random, tally, chart| {
            for length in (0..blocks + 4).chain([2 * blocks + 70]) {
                let lent = Guarded::of(random, length, word);
                _ = ask::blocks(tally, chart, &lent)?;
                raw_parts::blocks(random, tally, chart, &lent)?;
            }
            Ok(())
        });
    }
    let tally = group.end();
    let most = limits::BLOCKS as u64;
    // too short by one to all, just right, longer by one to three and by many
    assert_eq!(tally.count(BLOCKS, 11), (0..=most).sum());
    assert_eq!(tally.count(BLOCKS, 0), (most + 1) * 5);
    tally.expect_each(BLOCKS, 10..=10, 3);
}
