//! Whether a walk can come to a node a second time: a search along the arrows.

use crate::findings::{targets, Findings};
use std::mem::replace;

/// Whether arrows lead from a node back to itself.
fn leads_back(findings: &Findings, node: usize) -> bool {
    let mut seen = vec![false; findings.known.nodes.len()];
    let mut waiting = vec![node];
    while let Some(from) = waiting.pop() {
        for to in targets(&findings.node(from).fields) {
            if to == node {
                return true;
            }
            if !replace(&mut seen[to], true) {
                waiting.push(to);
            }
        }
    }
    false
}

/// The nodes that are to have two visits and more, and that no walk comes to twice. Mostly an arrow back is missing; a part of a chart that was
/// cut is come to again and again.
pub fn never_again(findings: &Findings) -> Vec<usize> {
    let twice = |node: &usize| findings.node(*node).visits.is_some_and(|visits| visits.floor > 1);
    let nodes = 0..findings.known.nodes.len();
    nodes
        .filter(twice)
        .filter(|node| !leads_back(findings, *node))
        .collect()
}
