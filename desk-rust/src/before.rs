//! Whether walks have touched a block before they come to a node: a search along the arrows from the entry, and from each touch of the block.

use crate::findings::{targets, Findings};
use std::mem::replace;

/// Of each node.
pub struct Before {
    /// Whether some walk that comes there has touched the block.
    pub with: Vec<bool>,
    /// Whether some walk that comes there has not.
    pub without: Vec<bool>,
}

impl Before {
    pub fn of(findings: &Findings, block: u32) -> Before {
        let touches = |node: usize| findings.touches[node].iter().any(|touch| touch.block == block);
        let behind = |node: usize| targets(&findings.node(node).fields);
        let nodes = 0..findings.known.nodes.len();
        let toucher = nodes.filter(|node| findings.reached(*node) && touches(*node));
        Before {
            with: come_to(findings, toucher.flat_map(behind), |_| true),
            without: come_to(findings, [findings.known.header.entry], |node| !touches(node)),
        }
    }
}

/// The nodes that walks come to from some nodes on, these included, where they go on from such nodes only.
fn come_to(findings: &Findings, from: impl IntoIterator<Item = usize>, goes_on: impl Fn(usize) -> bool) -> Vec<bool> {
    let mut come_to = vec![false; findings.known.nodes.len()];
    let mut waiting: Vec<usize> = from.into_iter().collect();
    while let Some(node) = waiting.pop() {
        if !replace(&mut come_to[node], true) && goes_on(node) {
            waiting.extend(targets(&findings.node(node).fields));
        }
    }
    come_to
}
