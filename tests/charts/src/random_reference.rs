//! Which bytes a random reference is to: of a block, and into the next one.

use crate::random::Random;
use crate::Record;

/// The sizes of a chart's references.
#[derive(Clone, Copy)]
pub enum Sizes {
    /// One byte each, so that none goes into a second block.
    One,
    Any,
}

impl Sizes {
    /// Many charts have references of one byte alone.
    pub fn of_a_chart(random: &mut Random) -> Sizes {
        if random.once_in(3) {
            Sizes::One
        } else {
            Sizes::Any
        }
    }

    fn code(self, random: &mut Random) -> u64 {
        match self {
            Sizes::One => 0,
            Sizes::Any => random.below(3),
        }
    }
}

/// A read or a write that begins in a block. It goes into the next one only if that is one of the chart's blocks too, and then often does.
pub fn reference(random: &mut Random, line: u64, block: u64, blocks: &[u64], sizes: Sizes) -> Record {
    let size = sizes.code(random);
    let (last, more) = ((1 << line) - 1, (1 << size) - 1);
    let next = blocks.contains(&(block + 1));
    let byte = if next && more > 0 && random.once_in(2) {
        last - random.below(more)
    } else {
        some_byte(random, last)
    };
    let byte = if next { byte } else { byte.min(last - more) };
    let address = block << line | byte;
    let reference = if random.once_in(3) {
        Record::write(address)
    } else {
        Record::read(address)
    };
    reference.sized(size)
}

/// A byte of a line: the first, the last, the two in the middle, one of the last four, any.
fn some_byte(random: &mut Random, last: u64) -> u64 {
    match random.below(6) {
        0 => 0,
        1 => last,
        2 => last / 2,
        3 => last / 2 + 1,
        4 => last - random.below(4),
        _ => random.below(last + 1),
    }
}

/// The blocks, and the next one behind some of them.
pub fn with_next(random: &mut Random, line: u64, mut blocks: Vec<u64>) -> Vec<u64> {
    for place in 0..blocks.len() {
        let next = blocks[place] + 1;
        if next >> (32 - line) == 0 && random.once_in(2) {
            blocks.push(next);
        }
    }
    blocks
}
