//! What the program prints for an input.

use crate::analysis::Analysed;
use crate::header::Header;
use crate::lending::Lending;
use crate::limits::{LONGEST, PASSES, TOUCHES};
use crate::refusal::Refusal;
use std::fmt::Write;

/// The longest chart and one byte more: what is behind them is not looked at (rule 13.1).
pub const INPUT: usize = LONGEST + 1;

/// The word of each class by its number.
const WORDS: [&str; 6] = ["unreached", "hit", "miss", "unsure", "none", "kept"];

pub fn report(input: &[u8]) -> String {
    let input = &input[..input.len().min(INPUT)];
    let mut lending = Lending::largest();
    match lending.analyse(input, PASSES) {
        Analysed::Settled { passes, blocks } => {
            let nodes = Header::read(input).expect("the analysis accepted it").nodes;
            settled(nodes, blocks, passes, &lending.classes[..TOUCHES * nodes])
        }
        Analysed::Unsettled { .. } => refused(Refusal::of(12)),
        Analysed::Refused(refusal) => refused(refusal),
    }
}

fn settled(nodes: usize, blocks: usize, passes: usize, classes: &[u8]) -> String {
    let mut text = format!("nodes {nodes} blocks {blocks} passes {passes}\n");
    for (node, classes) in classes.chunks_exact(TOUCHES).enumerate() {
        write!(text, "{node}").expect("a string takes any text");
        for &class in classes {
            write!(text, " {}", WORDS[usize::from(class)]).expect("a string takes any text");
        }
        text.push('\n');
    }
    text
}

fn refused(refusal: Refusal) -> String {
    format!("{refusal}\n")
}
