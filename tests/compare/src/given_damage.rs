//! Damage to what a chart is written from.

use crate::given::{Given, ADDRESSES, ENTRY, FIRSTS, HEADER_WIDTHS, KINDS, LIST_WIDTHS, NODES, OUTS, SECONDS, SIZES};
use crate::tally::Tally;
use charts::random::Random;
use second::limits::BLOCKS;
use std::array::from_fn;

/// The kinds of damage, as they are counted.
pub const DAMAGE: [&str; 12] = [
    "damage: a number of the header one more or one less",
    "damage: a number of the header any that its field can hold",
    "damage: the entry N",
    "damage: a number of a node one more or one less",
    "damage: a number of a node any that its field can hold",
    "damage: an arrow to N",
    "damage: two arrows to one node",
    "damage: a size at a bare step",
    "damage: an address at a bare step",
    "damage: an unused arrow that is not 0",
    "damage: a last byte past the last address",
    "damage: more blocks than the most",
];

/// One damage to lists that are equally long.
pub fn damage(random: &mut Random, tally: &mut Tally, given: &mut Given) {
    let kind = random.below(DAMAGE.len() as u64) as usize;
    tally.add(DAMAGE[kind]);
    match kind {
        0..=2 => damage_header(random, given, kind),
        3..=10 => damage_node(random, given, kind),
        _ => crowd(random, given),
    }
}

fn damage_header(random: &mut Random, given: &mut Given, kind: usize) {
    let place = random.below(6) as usize;
    match kind {
        0 => given.header[place] = beside(random, given.header[place]),
        1 => given.header[place] = random.below(1 << HEADER_WIDTHS[place]),
        _ => given.header[ENTRY] = given.header[NODES],
    }
}

fn damage_node(random: &mut Random, given: &mut Given, kind: usize) {
    let nodes = given.lists[KINDS].len() as u64;
    let node = random.below(nodes) as usize;
    let mut record: [u64; 6] = from_fn(|list| given.lists[list][node]);
    let place = random.below(6) as usize;
    match kind {
        3 => record[place] = beside(random, record[place]),
        4 => record[place] = random.below(1 << LIST_WIDTHS[place]),
        5 => {
            record[OUTS] = random.within(1, 2);
            record[[FIRSTS, SECONDS][record[OUTS] as usize - 1]] = nodes;
        }
        6 => {
            if random.once_in(2) {
                record[FIRSTS] = random.below(nodes);
            }
            record[OUTS] = 2;
            record[SECONDS] = record[FIRSTS];
        }
        7 => {
            record[KINDS] = 0;
            record[ADDRESSES] = 0;
            record[SIZES] = random.within(1, 3);
        }
        8 => {
            record[KINDS] = 0;
            record[ADDRESSES] = random.within(1, 40);
        }
        9 => {
            record[OUTS] = random.below(2);
            record[[FIRSTS, SECONDS][record[OUTS] as usize]] = random.within(1, nodes);
        }
        _ => {
            record[KINDS] = random.within(1, 2);
            record[SIZES] = random.within(1, 2);
            record[ADDRESSES] = (1 << 32) - random.within(1, (1 << record[SIZES]) - 1);
        }
    }
    for (list, number) in given.lists.iter_mut().zip(record) {
        list[node] = number;
    }
}

/// One more, or one less, which of 0 is the highest number that there is.
fn beside(random: &mut Random, number: u64) -> u64 {
    if random.once_in(2) {
        number.wrapping_add(1)
    } else {
        number.wrapping_sub(1)
    }
}

/// Has one block too many, or some, read by as many nodes. A chart that has too few gets more.
fn crowd(random: &mut Random, given: &mut Given) {
    let blocks = BLOCKS + 1 + random.below(4) as usize;
    let nodes = given.lists[KINDS].len();
    if nodes < blocks {
        given.lists.iter_mut().for_each(|list| list.resize(blocks, 0));
        given.header[NODES] = blocks as u64;
    }
    let first = random.below(nodes.saturating_sub(blocks) as u64 + 1) as usize;
    for block in 0..blocks {
        let numbers = [1, (block as u64) << 24, 0];
        for (list, number) in [KINDS, ADDRESSES, SIZES].into_iter().zip(numbers) {
            given.lists[list][first + block] = number;
        }
    }
}
