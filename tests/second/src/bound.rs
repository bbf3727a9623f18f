//! The bound that a certificate gives under facts (section 18 of the rules), and refusals 23 to 25.

use crate::cache::Costs;
use crate::certificate::{Certificate, Side};
use crate::facts::Facts;
use crate::grounds::Grounds;
use crate::lent::Lent;
use crate::ranges::all_within;
use crate::refusal::Refusal;

/// What no walk that keeps the facts costs more than, or less; or one of refusals 1 to 11, 13, 15 and 23 to 25. Nothing in the place of a side stands
/// for one that there is not.
pub fn bound(
    bytes: &[u8],
    lent: Lent,
    costs: Costs,
    side: Option<Side>,
    facts: Facts,
    certificate: Certificate,
) -> Result<u64, Refusal> {
    bound_on(&Grounds::of(bytes, lent, costs)?, side, facts, certificate)
}

/// The same where there is nothing to refuse of the chart, the table and the costs.
pub fn bound_on(grounds: &Grounds, side: Option<Side>, facts: Facts, certificate: Certificate) -> Result<u64, Refusal> {
    if !certificate.fits(facts, grounds.nodes.len()) {
        return Err(Refusal::of(23));
    }
    let side = side.filter(|_| all_within(facts, certificate));
    let side = side.ok_or(Refusal::of(24))?;
    let rests = certificate.rests(grounds, side, facts);
    let fails = |&node: &usize| !certificate.holds_at(grounds, &rests, node);
    if let Some(node) = (0..grounds.nodes.len()).find(fails) {
        return Err(Refusal::at(25, node));
    }
    let (sum, denominator) = (certificate.sum(grounds, facts), i128::from(certificate.denominator));
    let bound = match side {
        Side::High => sum.max(0).div_euclid(denominator) + first_loads(grounds, facts),
        // rounded up: less than the denominator is added before it is rounded down
        Side::Low => ((-sum).max(0) + denominator - 1).div_euclid(denominator),
    };
    Ok(bound.try_into().expect("the ranges are such that it fits"))
}

/// The difference to a miss, once for each block that is kept where a walk may come (rule 18.6).
fn first_loads(grounds: &Grounds, facts: Facts) -> i128 {
    let mut loaded = vec![false; grounds.blocks];
    let count = grounds.nodes.len();
    for (number, node) in grounds.nodes.iter().enumerate() {
        let ruled_out = || facts.each(count).any(|fact| fact.rules_out(number));
        // only marked nodes make touches that are called kept
        if !node.kept.is_empty() && !ruled_out() {
            node.kept.iter().for_each(|&block| loaded[block] = true);
        }
    }
    let once = loaded.into_iter().filter(|&loaded| loaded).count();
    once as i128 * i128::from(grounds.difference)
}
