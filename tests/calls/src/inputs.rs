//! The charts of the cases: many small ones and few large ones, some at an edge of groups and limits; whole, damaged, and bytes that are
//! no chart at all.

use charts::random::Random;
use charts::random_charts::{damaged, of_nodes, whole};
use charts::random_edges::at_an_edge;
use charts::Chart;

/// A chart with no fault but perhaps a block too many.
pub fn chart(random: &mut Random) -> Chart {
    match random.below(40) {
        0 => at_an_edge(random),
        1..=5 => whole(random),
        _ => {
            let nodes = random.within(1, 10);
            of_nodes(random, nodes)
        }
    }
}

/// The bytes of a chart, damaged once in so many times.
pub fn bytes(random: &mut Random, turns: u64) -> Vec<u8> {
    if !random.once_in(turns) {
        return chart(random).bytes();
    }
    if random.once_in(8) {
        let size = random.below(25);
        return (0..size).map(|_| random.below(256) as u8).collect();
    }
    let chart = chart(random);
    damaged(random, chart)
}
