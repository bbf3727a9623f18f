//! The ranges of rule 18.8.

use crate::certificate::Certificate;
use crate::facts::Facts;
use std::ops::RangeInclusive;

pub const DENOMINATORS: RangeInclusive<u64> = 1..=1 << 32;
pub const COEFFICIENTS: RangeInclusive<i64> = -(1 << 24)..=1 << 24;
pub const LIMITS: RangeInclusive<i64> = COEFFICIENTS;
pub const POTENTIALS: RangeInclusive<i64> = -(1 << 60)..=1 << 60;

/// No multiplier is below 0, and all together are no more than this.
pub const MULTIPLIERS: i128 = 1 << 36;

/// Whether every number is within its range, those of nodes that are not marked too.
pub fn all_within(facts: Facts, certificate: Certificate) -> bool {
    let multipliers = certificate.multipliers;
    DENOMINATORS.contains(&certificate.denominator)
        && facts.coefficients.iter().all(|own| COEFFICIENTS.contains(own))
        && facts.limits.iter().all(|limit| LIMITS.contains(limit))
        && multipliers.iter().all(|&multiplier| multiplier >= 0)
        && multipliers
            .iter()
            .map(|&multiplier| i128::from(multiplier))
            .sum::<i128>()
            <= MULTIPLIERS
        && certificate.potentials.iter().all(|own| POTENTIALS.contains(own))
}
