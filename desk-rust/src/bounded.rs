//! The two bounds that the facts of a text give, and which facts carry weight.

use crate::certify::{certified, Certified, Uncertified};
use crate::fact::{sayings, Saying};
use crate::findings::Findings;
use crate::rests::{facts, rests};
use crate::weights::{weights, Weight};
use veilbuzz::{Costs, Side};

pub struct Bounded<'a> {
    pub low: Result<Certified, Uncertified>,
    pub high: Result<Certified, Uncertified>,
    /// Of the facts that the high bound rests on.
    pub weights: Vec<Weight<'a>>,
    /// How many others there are.
    pub without_weight: usize,
}

/// All that a text with facts says of walks; nothing if it has none: visits alone are what totals are for.
pub fn said(findings: &Findings) -> Option<Vec<Saying>> {
    let known = findings.known;
    (!known.facts.is_empty()).then(|| sayings(known))
}

pub fn bounded<'a>(findings: &Findings, costs: Costs, sayings: &'a [Saying]) -> Bounded<'a> {
    let all: Vec<&Saying> = sayings.iter().collect();
    let facts = facts(&all);
    let low = certified(findings, costs, Side::Low, &facts);
    let high = certified(findings, costs, Side::High, &facts).map(|high| rests(findings, costs, sayings, high));
    let weights = match &high {
        Ok(rests) => weights(findings, costs, sayings, rests),
        Err(_) => vec![],
    };
    Bounded {
        low,
        high: high.map(|rests| rests.high),
        without_weight: sayings.len() - weights.len(),
        weights,
    }
}

/// What it means if the low bound is above the high one: both hold of every walk that keeps the facts.
pub const CROSSED: &str = "no walk keeps all facts: of one that did, the low bound would be above the high one";

impl Bounded<'_> {
    /// Whether the two bounds show that no walk keeps the facts.
    pub fn crossed(&self) -> bool {
        matches!((&self.low, &self.high), (Ok(low), Ok(high)) if low.bound > high.bound)
    }

    /// Whether nothing can be said by the facts, since none of what was asked for could be had.
    pub fn says_nothing(&self) -> bool {
        let asked_in_vain = |side: &Result<Certified, Uncertified>| {
            matches!(side, Err(Uncertified::Unsolved(_) | Uncertified::Unaccepted))
        };
        asked_in_vain(&self.low) && asked_in_vain(&self.high)
    }
}
