//! Floors and ceilings as facts, and the certificate whose bounds are the totals.

use crate::Claim;
use second::grounds::Grounds;

/// A ceiling for each node, and then a floor, as facts with multiplier 0.
pub fn as_facts(floors: &[u16], ceilings: &[u16]) -> Claim {
    let mut claim = Claim::of(0, floors.len(), 0, 1);
    for (sign, bounds) in [(1, ceilings), (-1, floors)] {
        for (node, &bound) in bounds.iter().enumerate() {
            let mut own = vec![0; bounds.len()];
            own[node] = sign;
            claim = claim.with(&own, sign * i64::from(bound), 0);
        }
    }
    claim
}

/// The same for one side, with what one visit counts as the multipliers of the ceilings, or of the floors on the low side.
pub fn with_costs(claim: &Claim, grounds: &Grounds, side: u64) -> Claim {
    let mut claim = Claim { side, ..claim.clone() };
    let count = grounds.nodes.len();
    for (node, ground) in grounds.nodes.iter().enumerate() {
        let (fact, cost) = [(node, ground.most), (count + node, ground.least)][side as usize];
        claim.multipliers[fact] = cost.into();
    }
    claim
}
