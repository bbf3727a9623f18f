//! What random charts, allowances and lengths are like.

use crate::lent::{Lengths, NAMES};
use crate::tally::Tally;
use charts::random::Random;
use charts::random_charts::{damaged, of_nodes};
use charts::random_edges::at_an_edge;
use charts::Chart;
use second::limits::{NODES, PASSES};

/// A chart, whole or damaged.
pub fn chart(random: &mut Random) -> Vec<u8> {
    let chart = whole(random);
    if random.once_in(3) {
        return damaged(random, chart);
    }
    chart.bytes()
}

/// A chart with no fault but perhaps a block too many. Small ones are quick and have most of what can go wrong; few are large, but for
/// those at an edge.
pub fn whole(random: &mut Random) -> Chart {
    let nodes = match random.below(200) {
        0..=139 => random.within(1, 10),
        140..=185 => random.within(11, 24),
        186..=195 => random.within(25, 80),
        196..=197 => random.within(81, 256),
        // where a node's number takes more than a byte
        _ => random.within(257, NODES as u64),
    };
    if random.once_in(16) {
        at_an_edge(random)
    } else {
        of_nodes(random, nodes)
    }
}

/// How allowances and lengths are counted: by the number of their kind.
pub const ALLOWANCE: &str = "allowance";
pub const ALLOWANCES: usize = 8;
pub const LENGTHS: [&str; 5] = [
    "length of blocks",
    "length of must",
    "length of may",
    "length of marks",
    "length of classes",
];

/// Of so many passes: none, one, one too few, just enough, one more, enough for any chart, one that 32 bits do not hold, the most.
pub fn allowance(random: &mut Random, tally: &mut Tally, passes: usize) -> usize {
    let kind = random.below(ALLOWANCES as u64) as usize;
    tally.at(ALLOWANCE, kind);
    [0, 1, passes - 1, passes, passes + 1, PASSES, 1 << 32, usize::MAX][kind]
}

/// Lengths around the used ones: none, one too few, just enough, one more, many more. Most are enough.
pub fn lengths(random: &mut Random, tally: &mut Tally, used: Lengths) -> Lengths {
    let mut lengths = used;
    for part in 0..NAMES.len() {
        let kind = match random.below(16) {
            0 => 0,
            1 => 1,
            2..=7 => 2,
            8..=11 => 3,
            _ => 4,
        };
        let (used, more) = (used[part], random.within(2, 90) as usize);
        lengths[part] = [0, used.saturating_sub(1), used, used + 1, used + more][kind];
        if used > 1 {
            tally.at(LENGTHS[part], kind);
        }
    }
    lengths
}

/// How the number of a node that is asked for is counted, by its kind.
pub const NODE_NUMBER: &str = "number of a node that is asked for";
pub const NODE_NUMBERS: usize = 9;

/// Of so many nodes: the first, any, the last, one past it, two past it; and what would come back to a node if only 12, 32 or 61 bits of
/// its number counted, or if one were added.
pub fn node_number(random: &mut Random, tally: &mut Tally, nodes: usize) -> usize {
    let kind = random.below(NODE_NUMBERS as u64) as usize;
    tally.at(NODE_NUMBER, kind);
    let any = random.below(nodes.max(1) as u64) as usize;
    [
        0,
        any,
        nodes.saturating_sub(1),
        nodes,
        nodes + 1,
        (1 << 12) + any,
        (1 << 32) + any,
        (1 << 61) + any,
        usize::MAX,
    ][kind]
}

/// How lengths of the list of blocks, and of the buffer that a chart is written to, are counted.
pub const BLOCKS_LENGTH: &str = "length of the list of blocks";
pub const CHART_LENGTH: &str = "length of the buffer for a chart";
pub const LENGTH_KINDS: usize = 9;

/// A length around the used one: none, three to one too few, just enough, one to three more, many more. Most are enough.
pub fn length(random: &mut Random, tally: &mut Tally, word: &'static str, used: usize) -> usize {
    let (kind, length) = match random.below(20) as usize {
        0 => (0, 0),
        few @ 1..=3 => (few, used.saturating_sub(4 - few)),
        4..=9 => (4, used),
        more @ 10..=12 => (more - 5, used + more - 9),
        _ => (8, used + random.within(4, 90) as usize),
    };
    if used > 3 {
        tally.at(word, kind);
    }
    length
}
