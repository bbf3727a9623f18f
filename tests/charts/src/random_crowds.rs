//! Blocks that come into each other's way.

use crate::random::Random;
use crate::Header;

/// About as many blocks of one set as it has ways, or twice as many, and the same of sets whose numbers differ from it in one bit.
pub fn crowd(random: &mut Random, header: &Header) -> Vec<u64> {
    let first = end_or_any(random, header.sets);
    let mut sets = vec![first];
    for _ in 0..random.below(4).min(header.sets) {
        sets.push(first ^ 1 << some_bit(random, header.sets));
    }
    let mut blocks = Vec::new();
    for set in sets {
        let size = match random.below(4) {
            0 => header.ways - 1,
            1 => header.ways,
            2 => header.ways + 1,
            _ => header.ways * 2,
        };
        for tag in tags(random, 32 - header.line - header.sets, size) {
            blocks.push(tag << header.sets | set);
        }
    }
    blocks
}

/// A block and some that differ from it in one bit each: at the ends of the set's number and of the rest, and anywhere.
pub fn neighbours(random: &mut Random, header: &Header) -> Vec<u64> {
    let width = 32 - header.line;
    let first = end_or_any(random, width);
    let mut blocks = vec![first];
    let sets = header.sets;
    for bit in [0, sets.saturating_sub(1), sets, sets + 1, width - 1] {
        if random.once_in(2) {
            blocks.push(first ^ 1 << bit);
        }
    }
    for _ in 0..random.below(3) {
        blocks.push(first ^ 1 << random.below(width));
    }
    blocks
}

/// Just so many different blocks, of crowds as far as these go.
pub fn just(random: &mut Random, header: &Header, count: usize) -> Vec<u64> {
    let mut blocks = Vec::new();
    while blocks.len() < count {
        blocks.extend(crowd(random, header));
        blocks = different(blocks);
    }
    blocks.truncate(count);
    blocks
}

/// Each of the blocks once, in the order of their first places.
pub fn different(blocks: Vec<u64>) -> Vec<u64> {
    let mut once = Vec::new();
    for block in blocks {
        if !once.contains(&block) {
            once.push(block);
        }
    }
    once
}

/// So many numbers of so many bits: the lowest, the highest, or any.
fn tags(random: &mut Random, width: u64, size: u64) -> Vec<u64> {
    let kind = random.below(3);
    (0..size)
        .map(|place| match kind {
            0 => place,
            1 => (1 << width) - 1 - place,
            _ => random.below(1 << width),
        })
        .collect()
}

/// A number of so many bits: 0, the highest, or any.
fn end_or_any(random: &mut Random, width: u64) -> u64 {
    match random.below(3) {
        0 => 0,
        1 => (1 << width) - 1,
        _ => random.below(1 << width),
    }
}

/// One of so many bits, an end one as often as not.
fn some_bit(random: &mut Random, width: u64) -> u64 {
    match random.below(4) {
        0 => 0,
        1 => width - 1,
        _ => random.below(width),
    }
}
