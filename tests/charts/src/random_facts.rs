//! Facts that given visits keep, of each kind that a caller may have to say, and others.

use crate::random::Random;
use crate::Claim;
use second::facts::Fact;
use second::ranges::{COEFFICIENTS, LIMITS};

/// How large the numbers of facts are that are drawn.
#[derive(Clone, Copy, PartialEq)]
pub enum Size {
    Small,
    Any,
}

/// The same claim with one fact more that is kept by such visits, often just so, and with multiplier 0.
pub fn with_fact(random: &mut Random, claim: Claim, visits: &[u64], size: Size) -> Claim {
    let coefficients = coefficients(random, visits, size);
    let slack = match random.below(8) {
        0..=3 => 0,
        4..=6 => random.below(6),
        _ if size == Size::Small => random.below(20),
        _ => random.below(1 << 20),
    };
    let fact = Fact {
        coefficients: &coefficients,
        limit: 0,
    };
    let limit = fact.sum(visits) + i128::from(slack);
    match i64::try_from(limit) {
        Ok(limit) if LIMITS.contains(&limit) => claim.with(&coefficients, limit, 0),
        // so many visits are no fact that can be given
        _ => claim.with(&vec![0; visits.len()], 0, 0),
    }
}

/// A ceiling, a floor, the whole length, so many visits of one node for each of another, several nodes together, nodes that are ruled out,
/// anything.
fn coefficients(random: &mut Random, visits: &[u64], size: Size) -> Vec<i64> {
    let mut own = vec![0; visits.len()];
    let any = |random: &mut Random| random.below(visits.len() as u64) as usize;
    match random.below(8) {
        0 | 1 => own[any(random)] = 1,
        2 => own[any(random)] = -1,
        3 => own.fill(1),
        4 => {
            own[any(random)] = 1;
            own[any(random)] = -(random.within(1, 9) as i64);
        }
        5 => {
            for _ in 0..random.within(2, 4) {
                own[any(random)] = random.within(1, 2) as i64;
            }
        }
        6 => {
            let never = |node: &usize| visits[*node] == 0;
            for node in (0..visits.len()).filter(never) {
                own[node] = random.below(3) as i64;
            }
        }
        _ => own.fill_with(|| anything(random, size)),
    }
    own
}

fn anything(random: &mut Random, size: Size) -> i64 {
    match random.below(6) {
        0..=2 => 0,
        5 if size == Size::Any => wide(random),
        _ => random.below(11) as i64 - 5,
    }
}

/// Any coefficient, now and then one at an end of the range.
fn wide(random: &mut Random) -> i64 {
    match random.below(8) {
        0 => *COEFFICIENTS.start(),
        1 => *COEFFICIENTS.end(),
        _ => random.below(1 << 25) as i64 + COEFFICIENTS.start(),
    }
}
