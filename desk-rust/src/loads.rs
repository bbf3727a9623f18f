//! First loads: of each block with a touch that is called kept, what the one miss that it may have costs more than a hit (rule 10.4).

use crate::findings::Findings;
use crate::given::Given;
use crate::touches::Touch;
use std::collections::BTreeMap;
use veilbuzz::Class;

pub struct Load {
    /// The block, and its set.
    pub of: Touch,
    /// The nodes that have visits and a kept touch of the block.
    pub nodes: Vec<usize>,
    /// What it adds to the high total.
    pub adds: u64,
}

/// What a miss costs more than a hit.
pub fn difference(given: &Given) -> u64 {
    given.costs.miss.saturating_sub(given.costs.hit).into()
}

/// The kept touches of a node, if it has visits.
pub fn kept<'a>(findings: &'a Findings, given: &Given, node: usize) -> impl Iterator<Item = Touch> + 'a {
    let visited = given.bounds().ceilings[node] > 0;
    let touches = findings.touches[node].iter().zip(findings.analysis.classes[node]);
    let kept = touches.filter(move |(_, class)| visited && *class == Class::Kept);
    kept.map(|(touch, _)| *touch)
}

/// One for each block that has such a touch, in the order of the blocks.
pub fn loads(findings: &Findings, given: &Given) -> Vec<Load> {
    let mut loads: BTreeMap<u32, Load> = BTreeMap::new();
    for node in 0..findings.known.nodes.len() {
        for of in kept(findings, given, node) {
            let load = loads.entry(of.block).or_insert_with(|| Load {
                of,
                nodes: vec![],
                adds: difference(given),
            });
            load.nodes.push(node);
        }
    }
    loads.into_values().collect()
}
