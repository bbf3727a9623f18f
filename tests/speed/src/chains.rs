//! How long a whole analysis takes as chains that run against the numbers grow: a pass carries a change one node far, so that there are about as
//! many passes as nodes, in each of which one node or a few have changed.

use crate::kinds::Kind;
use crate::measures::{Case, FEWEST};
use crate::plot_chains;
use second::limits::{BLOCKS, NODES};
use std::fs;

/// The names of the analyses, in the order in which they are measured.
pub const NAMES: [&str; 3] = ["ours", "second", "unchanged"];

/// From here on the growth is told as one number: blocks and passes grow as the nodes do, and what an analysis costs beside them counts for little.
const FROM: usize = NODES / 4;

/// One chain, and the best times in microseconds.
pub struct Chain {
    pub nodes: usize,
    pub blocks: usize,
    pub passes: usize,
    pub times: [f64; 3],
}

/// Chains that have as many blocks as there can be up to the most, each twice as long as the one before.
pub struct Chains {
    pub blocks: usize,
    pub all: Vec<Chain>,
}

impl Chains {
    fn measure(blocks: usize) -> Chains {
        let lengths = std::iter::successors(Some(FEWEST), |&nodes| Some(2 * nodes));
        Chains {
            blocks,
            all: lengths
                .take_while(|&nodes| nodes <= NODES)
                .map(|nodes| Chain::measure(nodes, blocks.min(nodes)))
                .collect(),
        }
    }

    /// How many times as long each takes for the longest chain as for one of a quarter of its nodes.
    fn growth(&self) -> [f64; 3] {
        let times = |nodes| {
            self.all
                .iter()
                .find(|chain| chain.nodes == nodes)
                .expect("it was measured")
                .times
        };
        [0, 1, 2].map(|whose| times(NODES)[whose] / times(FROM)[whose])
    }
}

impl Chain {
    fn measure(nodes: usize, blocks: usize) -> Chain {
        let case = Case {
            kind: Kind::Backward,
            nodes,
            blocks,
            cleared: false,
        };
        let measure = case.measure();
        Chain {
            nodes,
            blocks,
            passes: measure.passes,
            times: measure.best(),
        }
    }
}

/// Prints the tables, and draws the picture into a file.
pub fn print(picture: &str) {
    println!("| nodes | blocks | passes | ours, µs | second, µs | unchanged, µs |");
    println!("|---|---|---|---|---|---|");
    let both = [8, BLOCKS].map(Chains::measure);
    for Chain {
        nodes,
        blocks,
        passes,
        times,
    } in both.iter().flat_map(|chains| &chains.all)
    {
        let [ours, second, unchanged] = times;
        println!("| {nodes} | {blocks} | {passes} | {ours:.2} | {second:.2} | {unchanged:.2} |");
    }
    println!();
    for chains in &both {
        let [ours, second, unchanged] = chains.growth();
        println!(
            "from {FROM} nodes to {NODES}, {} blocks: ours {ours:.1} times, second {second:.1} times, unchanged {unchanged:.1} times",
            chains.blocks
        );
    }
    fs::write(picture, plot_chains::svg(&both)).expect("the picture can be written");
}
