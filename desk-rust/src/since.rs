//! What walks have touched since a block was touched last: a search along the arrows, backwards from a touch.

use crate::before::Before;
use crate::findings::Findings;
use crate::touches::Touch;
use std::collections::{BTreeMap, BTreeSet};
use std::mem::replace;

/// Blocks, and of each the nodes that touch it.
pub type Others = BTreeMap<u32, BTreeSet<usize>>;

#[derive(Default)]
pub struct Since {
    /// The nodes at which the block was touched last.
    pub last: BTreeSet<usize>,
    /// Whether a walk can come from the start without touching it.
    pub from_start: bool,
    /// The other blocks of its set that are touched since, on walks that have touched it: its set since (rule 16.1).
    pub others: Others,
    /// The other blocks of its set that are touched on walks that come from the start without touching it.
    pub others_from_start: Others,
}

/// Of one of the touches of a node that a walk comes to.
pub fn since(findings: &Findings, node: usize, place: usize) -> Since {
    let touch = findings.touches[node][place];
    let before = Before::of(findings, touch.block);
    let mut since = Since {
        from_start: before.without[node],
        ..Since::default()
    };
    since.meets(touch, &before, node, &findings.touches[node][..place]);
    let mut seen = vec![false; findings.known.nodes.len()];
    let mut waiting = vec![node];
    while let Some(node) = waiting.pop() {
        for from in findings.sources(node).filter(|from| findings.reached(*from)) {
            let new = !replace(&mut seen[from], true);
            if new && !since.meets(touch, &before, from, &findings.touches[from]) {
                waiting.push(from);
            }
        }
    }
    since
}

impl Since {
    /// Goes back over touches of a node, from the last of them on: whether the block itself is met, behind which nothing counts.
    fn meets(&mut self, wanted: Touch, before: &Before, node: usize, touches: &[Touch]) -> bool {
        let own = touches.iter().rposition(|touch| touch.block == wanted.block);
        let behind = &touches[own.map_or(0, |own| own + 1)..];
        for touch in behind.iter().filter(|touch| touch.set == wanted.set) {
            if own.is_some() || before.with[node] {
                self.others.entry(touch.block).or_default().insert(node);
            }
            if own.is_none() && before.without[node] {
                self.others_from_start.entry(touch.block).or_default().insert(node);
            }
        }
        if own.is_some() {
            self.last.insert(node);
        }
        own.is_some()
    }
}
