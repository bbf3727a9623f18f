//! Loose charts: blocks and arrows anywhere. Few nodes are reached and blocks seldom meet, so that much is unreached or alone.

use crate::random::Random;
use crate::random_reference::{reference, Sizes};
use crate::{Chart, Header, Record};

const BLOCKS: u64 = second::limits::BLOCKS as u64;

/// How most arrows of a chart run. Left to chance alone, few nodes are reached and few passes are made.
#[derive(Clone, Copy)]
enum Course {
    Any,
    Onward,
    Back,
}

/// A loose chart of so many nodes.
pub fn loose(random: &mut Random, nodes: u64) -> Chart {
    let course = match random.below(3) {
        0 => Course::Any,
        1 => Course::Onward,
        _ => Course::Back,
    };
    let header = header(random, nodes, course);
    let sizes = Sizes::of_a_chart(random);
    let pool = pool(random, header.line);
    let mut fresh = 0;
    let records = (0..nodes)
        .map(|node| {
            let record = record(random, header.line, &pool, sizes, &mut fresh);
            with_arrows(random, record, node, nodes, course)
        })
        .collect();
    Chart { header, records }
}

/// A header without fault. Half of the caches have few sets, so that blocks come into each other's way.
fn header(random: &mut Random, nodes: u64, course: Course) -> Header {
    let most_sets = if random.once_in(2) { 2 } else { 8 };
    let entry = match course {
        Course::Any => random.below(nodes),
        Course::Onward => random.below(nodes.min(3)),
        Course::Back => nodes - 1 - random.below(nodes.min(3)),
    };
    Header {
        edition: 1,
        line: random.within(2, 8),
        sets: random.within(0, most_sets),
        ways: random.within(1, 8),
        start: random.below(2),
        spare: 0,
        nodes,
        entry,
        tail: 0,
    }
}

/// The blocks that a chart may touch. Often they are few, so that one is touched again soon, and often they number about the most, to come
/// near the limit from both sides. One is anywhere, at an end of the memory, or behind the one before it.
fn pool(random: &mut Random, line: u64) -> Vec<u64> {
    let size = match random.below(5) {
        0 | 1 => random.within(1, 5),
        2 => random.within(5, 15),
        3 => random.within(BLOCKS - 1, BLOCKS + 2),
        _ => random.within(1, 100),
    };
    let last = (1 << (32 - line)) - 1;
    let mut pool = vec![];
    while (pool.len() as u64) < size {
        let block = match (random.below(12), pool.last()) {
            (0, _) => 0,
            (1, _) => last,
            (2..=5, Some(&before)) if before < last => before + 1,
            _ => random.within(0, last),
        };
        if !pool.contains(&block) {
            pool.push(block);
        }
    }
    pool
}

/// A record that keeps its rules, without arrows. It takes the pool's next block, or now and then any of it.
fn record(random: &mut Random, line: u64, pool: &[u64], sizes: Sizes, fresh: &mut usize) -> Record {
    let block = if random.once_in(4) {
        random.below(pool.len() as u64) as usize
    } else {
        *fresh += 1;
        (*fresh - 1) % pool.len()
    };
    if random.once_in(10) {
        return Record::step();
    }
    reference(random, line, pool[block], pool, sizes)
}

/// The record with up to two arrows, to different nodes. Off the course they lead anywhere, to the last node more often than to others.
fn with_arrows(random: &mut Random, record: Record, node: u64, nodes: u64, course: Course) -> Record {
    let outs = match course {
        Course::Any => random.below(3),
        Course::Onward | Course::Back => match random.below(40) {
            0 => 0,
            1..=24 => 1,
            _ => 2,
        },
    };
    (0..outs).fold(record, |record, _| {
        let target = match course {
            Course::Onward if !random.once_in(8) => (node + random.within(0, 2)).min(nodes - 1),
            Course::Back if !random.once_in(8) => node.saturating_sub(random.within(0, 2)),
            _ if random.once_in(4) => nodes - 1,
            _ => random.below(nodes),
        };
        if record.leads_to(target) {
            record
        } else {
            record.to(target)
        }
    })
}
