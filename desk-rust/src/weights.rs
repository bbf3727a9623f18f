//! What each fact that a high bound rests on is worth: how much higher the bound is without it, with all others that the text says.

use crate::certify::{certified, Uncertified};
use crate::fact::Saying;
use crate::findings::Findings;
use crate::rests::{facts, Rests};
use std::cmp::Reverse;
use veilbuzz::{Costs, Side};

/// A saying with the multipliers of its facts: of the most, and of the least.
pub struct Weight<'a> {
    pub saying: &'a Saying,
    pub at_most: i64,
    pub at_least: i64,
    /// Nothing where it was not asked for.
    pub worth: Option<Worth>,
}

#[derive(Clone, Copy, Debug, PartialEq, Eq, PartialOrd, Ord)]
pub enum Worth {
    By(u64),
    /// There is no bound without it.
    All,
}

/// What so many are worth is asked for, and of no more: each is a program of its own.
const ASKED: usize = 40;

/// What is worth most first, and of equal ones lines of facts before visits.
pub fn weights<'a>(findings: &Findings, costs: Costs, sayings: &'a [Saying], rests: &Rests<'a>) -> Vec<Weight<'a>> {
    let weight = |(saying, own): (&'a Saying, &[i64])| {
        let mut own = own.iter().copied();
        Weight {
            saying,
            at_most: saying.at_most.as_ref().and_then(|_| own.next()).unwrap_or(0),
            at_least: saying.at_least.as_ref().and_then(|_| own.next()).unwrap_or(0),
            worth: None,
        }
    };
    let mut weights: Vec<Weight> = rests.multipliers().into_iter().map(weight).collect();
    weights.sort_by_key(|weight| (weight.saying.visits_of.is_some(), weight.saying.span));
    for weight in weights.iter_mut().take(ASKED) {
        let others = sayings.iter().filter(|other| other.span != weight.saying.span);
        let others: Vec<&Saying> = others.collect();
        weight.worth = match certified(findings, costs, Side::High, &facts(&others)) {
            Ok(without) => Some(Worth::By(without.bound.saturating_sub(rests.high.bound))),
            Err(Uncertified::Boundless) => Some(Worth::All),
            Err(_) => None,
        };
    }
    weights.sort_by_key(|weight| Reverse(weight.worth));
    weights
}
