//! Charts with as many nodes and blocks as stand at an edge: of what is worked on in groups, and of the limits.

use crate::random::Random;
use crate::random_reached::reached_with;
use crate::sizes::touched_before;
use crate::{Chart, Record};
use std::collections::BTreeSet;

const NODES: u64 = second::limits::NODES as u64;
const BLOCKS: u64 = second::limits::BLOCKS as u64;

/// Both sides of each power of two from 8 on, and the ends. The last is one too many.
pub const EDGES: [u64; 14] = [0, 1, 7, 8, 9, 15, 16, 17, 31, 32, 33, BLOCKS - 1, BLOCKS, BLOCKS + 1];

/// Both sides of the powers of two from 256 on, and the most nodes from below.
pub const NODE_EDGES: [u64; 8] = [255, 256, 257, 511, 512, 513, NODES - 1, NODES];

/// A chart with just so many blocks, and as few nodes as that takes, some more, or a number of nodes at an edge.
pub fn at_an_edge(random: &mut Random) -> Chart {
    let blocks = EDGES[random.below(EDGES.len() as u64) as usize];
    let least = blocks.max(1);
    let nodes = match random.below(20) {
        0 | 1 => NODE_EDGES[random.below(NODE_EDGES.len() as u64) as usize],
        2..=6 => least,
        _ => least + random.within(1, 12),
    };
    if blocks > 2 && random.once_in(4) {
        return over_an_end(random, nodes, blocks);
    }
    reached_with(random, nodes, blocks)
}

/// Such a chart whose last node goes over the end of a line, and so brings the last block, or the last two at once.
fn over_an_end(random: &mut Random, nodes: u64, blocks: u64) -> Chart {
    let fresh = random.within(1, 2);
    let mut chart = reached_with(random, nodes - 1, blocks - fresh);
    let touched = touched_before(&chart.bytes(), chart.records.len());
    let line = chart.header.line;
    let lower = loop {
        let lower = beside(random, line, &touched, fresh);
        let new = [lower, lower + 1].into_iter().filter(|block| !touched.contains(block));
        if new.count() as u64 == fresh {
            break u64::from(lower);
        }
    };
    let mut open: Vec<&mut Record> = chart.records.iter_mut().filter(|record| record.outs < 2).collect();
    if !open.is_empty() {
        let from = random.below(open.len() as u64) as usize;
        *open[from] = open[from].to(nodes - 1);
    }
    let size = random.within(1, 2);
    let address = ((lower + 1) << line) - random.within(1, (1 << size) - 1);
    let last = Record::read(address).sized(size).to(chart.header.entry);
    chart.records.push(last);
    chart.header.nodes = nodes;
    chart
}

/// Any block that has a next one; where one new block is looked for, a block of the chart or the one before it.
fn beside(random: &mut Random, line: u64, touched: &BTreeSet<u32>, fresh: u64) -> u32 {
    let last = u32::MAX >> line;
    if fresh == 2 {
        return random.below(last.into()) as u32;
    }
    let place = random.below(touched.len() as u64) as usize;
    let block = touched.iter().nth(place).expect("there are so many");
    block.saturating_sub(random.below(2) as u32).min(last - 1)
}
