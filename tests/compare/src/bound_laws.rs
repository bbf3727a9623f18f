//! What holds of any bounds, tried on what the archive has told.

use crate::same::{holds, Held};
use crate::tally::Tally;
use charts::Claim;
use second::certificate::Side;
use veilbuzz::Totals;

/// How a walk that keeps the facts is counted: at the high bound, below it; at the low bound, above it.
pub const WALK: [&str; 4] = [
    "a walk costs what the high bound is",
    "a walk costs less than the high bound",
    "a walk costs what the low bound is",
    "a walk costs more than the low bound",
];

/// Both bounds of floors and ceilings as facts, which are the totals; 1 where they differ.
pub const AS_TOTALS: &str = "floors and ceilings as facts, with two totals";

/// What a walk that keeps the facts of a claim costs is no more than the high bound, and no less than the low one.
pub fn walk(tally: &mut Tally, claim: &Claim, bound: u64, paid: u64) -> Held {
    let low = claim.side() == Some(Side::Low);
    let within = if low { bound <= paid } else { paid <= bound };
    holds(within, || {
        format!("a walk costs {paid}, and has the bound {bound}, of {claim:?}")
    })?;
    tally.add(WALK[2 * usize::from(low) + usize::from(paid != bound)]);
    Ok(())
}

/// What a bound of floors and ceilings has to be, with one visit's cost as multipliers.
pub fn totals(tally: &mut Tally, claim: &Claim, bound: u64, totals: Totals) -> Held {
    let low = claim.side() == Some(Side::Low);
    let total = if low { totals.low } else { totals.high };
    holds(bound == total, || {
        format!("{totals:?} as facts have the bound {bound}, of {claim:?}")
    })?;
    tally.at(AS_TOTALS, usize::from(totals.low < totals.high));
    Ok(())
}
