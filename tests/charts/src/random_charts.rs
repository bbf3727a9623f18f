//! Random charts of all kinds: whole ones, which may have a block too many and break no other rule, and damaged ones.

use crate::random::Random;
use crate::random_edges::at_an_edge;
use crate::random_loose::loose;
use crate::random_reached::reached;
use crate::Chart;

pub use crate::random_damage::damaged;

const NODES: u64 = second::limits::NODES as u64;

/// A chart with no fault but perhaps a block too many.
pub fn whole(random: &mut Random) -> Chart {
    if random.once_in(8) {
        return at_an_edge(random);
    }
    let nodes = match random.below(16) {
        0..=4 => random.within(1, 4),
        5..=9 => random.within(1, 60),
        10..=13 => random.within(60, 140),
        14 => random.within(141, NODES),
        _ => random.within(NODES - 6, NODES),
    };
    of_nodes(random, nodes)
}

/// A chart of so many nodes with no fault but perhaps a block too many. Most reach most of their nodes.
pub fn of_nodes(random: &mut Random, nodes: u64) -> Chart {
    if random.once_in(4) {
        loose(random, nodes)
    } else {
        reached(random, nodes)
    }
}
