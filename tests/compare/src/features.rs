//! What an accepted chart has, counted.

use crate::tally::Tally;
use second::chart::Chart;
use second::header::Start;
use second::limits::{TOUCHES, WAYS};
use veilbuzz::Settled;

pub const NODES: &str = "nodes";
pub const BLOCKS: &str = "blocks";
pub const PASSES: &str = "passes";
/// Charts by the class of a first touch, and of a second.
pub const CLASS: [&str; TOUCHES] = ["class of a first touch", "class of a second touch"];
/// So many classes there are, by their numbers from 0 on.
pub const CLASSES: usize = 6;
/// Charts by how many tenths of their nodes are reached.
pub const REACHED: &str = "tenths of the nodes reached";
pub const GEOMETRY: &str = "geometry and start";

/// The numbers of all shapes of a cache with both starts run from 0 to this, without it: 7 of L, 9 of S, those of A.
pub const GEOMETRIES: usize = 7 * 9 * WAYS * 2;

/// What arrows and nodes may be like.
pub const LIKE: [&str; 9] = [
    "a self loop",
    "a self loop as the first of two arrows",
    "an arrow into the entry",
    "one arrow, to node 0",
    "a node without arrows",
    "an entry that is not node 0",
    "bare steps alone",
    "a write",
    "an unreached node",
];

fn geometry(chart: &Chart) -> usize {
    let shape = chart.header.geometry;
    let (line, sets, ways) = (
        shape.line as usize - 2,
        shape.sets as usize,
        usize::from(shape.ways) - 1,
    );
    let start = usize::from(chart.header.start == Start::Empty);
    ((line * 9 + sets) * WAYS + ways) * 2 + start
}

/// Counts what a settled chart has, and the classes that it was given.
pub fn count(tally: &mut Tally, bytes: &[u8], chart: &Chart, settled: Settled, classes: &[u8]) {
    tally.at(NODES, chart.nodes.len());
    tally.at(BLOCKS, chart.blocks.len());
    tally.at(PASSES, settled.passes);
    tally.at(GEOMETRY, geometry(chart));
    let reached = classes.chunks(TOUCHES).filter(|both| both[0] != 0).count();
    tally.at(REACHED, 10 * reached / chart.nodes.len());
    let targets = |node: usize| chart.nodes[node].arrows.targets();
    let any = |like: &dyn Fn(usize) -> bool| (0..chart.nodes.len()).any(like);
    let entry = chart.header.entry;
    let has = [
        any(&|node| targets(node).contains(&node)),
        any(&|node| targets(node).len() == 2 && targets(node)[0] == node),
        any(&|node| targets(node).contains(&entry)),
        any(&|node| targets(node) == [0]),
        any(&|node| targets(node).is_empty()),
        entry != 0,
        chart.blocks.is_empty(),
        any(&|node| bytes[8 + 8 * node] >> 6 == 2),
        classes.contains(&0),
    ];
    for (has, like) in has.into_iter().zip(LIKE) {
        tally.add_if(has, like);
    }
    for (touch, word) in CLASS.into_iter().enumerate() {
        let mut met = [false; CLASSES];
        for both in classes.chunks(TOUCHES) {
            met[usize::from(both[touch])] = true;
        }
        for class in (0..met.len()).filter(|&class| met[class]) {
            tally.at(word, class);
        }
    }
}
