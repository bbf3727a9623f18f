//! Claims that hold: facts that given visits keep, multipliers that are drawn, and potentials that are worked out.

use crate::longest::longest;
use crate::random::Random;
use crate::random_facts::{with_fact, Size};
use crate::Claim;
use second::certificate::Side;
use second::grounds::Grounds;
use second::ranges::{DENOMINATORS, POTENTIALS};

/// Facts without a certificate: mostly few, now and then many, or none.
pub fn facts(random: &mut Random, side: u64, visits: &[u64], size: Size) -> Claim {
    let count = match random.below(24) {
        0..=4 => 0,
        5..=21 => random.within(1, 4),
        22 => random.within(5, 9),
        _ => random.within(10, 40),
    };
    let none = Claim::of(side, visits.len(), 0, 1);
    (0..count).fold(none, |claim, _| with_fact(random, claim, visits, size))
}

/// The same facts with a certificate that holds, perhaps with one fact more, which has to be kept too; out of range now and then.
pub fn certified(random: &mut Random, grounds: &Grounds, mut claim: Claim, visits: &[u64]) -> Claim {
    claim.denominator = denominator(random);
    for fact in 0..claim.limits.len() {
        claim.multipliers[fact] = multiplier(random, grounds, claim.denominator);
    }
    let mut potentials = longest(grounds, &rests(grounds, &claim));
    if potentials.is_none() {
        claim = mended(grounds, claim, visits);
        potentials = longest(grounds, &rests(grounds, &claim));
    }
    let potentials = potentials.expect("no visit is left with more than 0");
    // the same more everywhere holds as well
    let lift = if random.once_in(6) { random.below(1 << 20) } else { 0 };
    for (node, own) in claim.potentials.iter_mut().enumerate() {
        let lifted = potentials[node] + i128::from(lift);
        *own = if grounds.nodes[node].marked {
            lifted.clamp(i64::MIN.into(), i64::MAX.into()) as i64
        } else {
            unmarked(random)
        };
    }
    claim
}

/// What a visit of each node is left with.
pub fn rests(grounds: &Grounds, claim: &Claim) -> Vec<i128> {
    let side = claim.side().unwrap_or(Side::High);
    claim.certificate().rests(grounds, side, claim.facts())
}

/// With the length of the whole walk as a fact, so heavy that no visit is left with more than 0.
fn mended(grounds: &Grounds, claim: Claim, visits: &[u64]) -> Claim {
    let most = rests(grounds, &claim).into_iter().max().unwrap_or(0);
    let multiplier = i64::try_from(most).expect("so many multipliers of such a size come to less");
    let limit = visits.iter().sum::<u64>();
    claim.with(&vec![1; visits.len()], limit as i64, multiplier)
}

fn denominator(random: &mut Random) -> u64 {
    match random.below(16) {
        0..=6 => 1,
        7..=10 => random.within(2, 9),
        11 | 12 => 1 << random.below(13),
        13 | 14 => random.within(1, 5_000),
        _ => DENOMINATORS.end() - random.below(2) * random.below(1 << 20),
    }
}

/// Nothing, little, what visits of a node count, a part of it.
fn multiplier(random: &mut Random, grounds: &Grounds, denominator: u64) -> i64 {
    let ground = &grounds.nodes[random.below(grounds.nodes.len() as u64) as usize];
    let counted = if random.once_in(2) { ground.most } else { ground.least };
    let whole = u64::from(counted) * denominator.min(1 << 16);
    let multiplier = match random.below(8) {
        0 | 1 => 0,
        2 => random.below(3),
        3 | 4 => whole,
        5 | 6 => random.within(0, whole),
        _ => random.below(1 << 33) >> random.below(33),
    };
    multiplier as i64
}

/// What nobody is to look at, and has to be in range all the same.
fn unmarked(random: &mut Random) -> i64 {
    match random.below(6) {
        0 => *POTENTIALS.start(),
        1 => *POTENTIALS.end(),
        2 => 0,
        _ => random.below(1 << 40) as i64 - (1 << 39),
    }
}
