//! Potentials that hold: what the longest walk to a node comes to, where a visit of each is left with so much.

use second::grounds::Grounds;

/// Far below what a walk comes to.
const NO_WALK: i128 = -(1 << 58);

/// Nothing if there is a ring of marked nodes that comes to more than 0: then no potentials hold.
pub fn longest(grounds: &Grounds, rests: &[i128]) -> Option<Vec<i128>> {
    let mut longest = vec![NO_WALK; rests.len()];
    longest[grounds.entry] = rests[grounds.entry];
    let still = (0..=rests.len()).any(|_| !lengthen(grounds, rests, &mut longest));
    still.then_some(longest)
}

/// Goes along each arrow once. Whether anything became longer.
fn lengthen(grounds: &Grounds, rests: &[i128], longest: &mut [i128]) -> bool {
    let mut changed = false;
    for (node, ground) in grounds.nodes.iter().enumerate().filter(|(_, ground)| ground.marked) {
        for &target in &ground.targets {
            let along = longest[node] + rests[target];
            changed |= along > longest[target];
            longest[target] = along.max(longest[target]);
        }
    }
    changed
}
