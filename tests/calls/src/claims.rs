//! The facts and certificates that a bound is asked with: such that hold, with numbers up to the ends of their ranges; half of them are then
//! changed.

use crate::buffer::Buffer;
use crate::lengths::just;
use crate::misclaims::{change, set, together};
use charts::longest::longest;
use charts::random::Random;
use charts::random_claims::{certified, facts, rests};
use charts::random_facts::Size;
use charts::Claim;
use second::grounds::Grounds;
use second::ranges::{COEFFICIENTS, DENOMINATORS, LIMITS, MULTIPLIERS, POTENTIALS};
use std::ops::RangeInclusive;

/// A claim of a chart, or of one with so many nodes that is refused, as its table or its costs may be: then nobody comes to look at it.
pub fn claim(random: &mut Random, grounds: Option<&Grounds>, nodes: usize) -> Claim {
    let side = side(random);
    let mut claim = match grounds {
        Some(grounds) => held(random, grounds, side),
        None => {
            let nodes = if nodes == 0 { random.below(4) as usize } else { nodes };
            Claim::of(side, nodes, 0, 1).with(&vec![1; nodes], 1, 1)
        }
    };
    if random.once_in(2) {
        change(random, &mut claim);
    }
    claim
}

/// One that holds, unless its side is none.
fn held(random: &mut Random, grounds: &Grounds, side: u64) -> Claim {
    let visits: Vec<u64> = grounds.nodes.iter().map(|node| visits(random, node.marked)).collect();
    let facts = facts(random, side, &visits, Size::Any);
    let mut claim = certified(random, grounds, facts, &visits);
    if random.once_in(3) {
        to_an_end(random, &mut claim);
        fit(grounds, &mut claim);
    }
    if random.once_in(12) {
        lift(grounds, &mut claim);
    }
    claim
}

/// How often a walk could come to a node.
fn visits(random: &mut Random, marked: bool) -> u64 {
    match random.below(4) {
        _ if !marked => 0,
        0 => 0,
        1 => random.below(1 << 12),
        _ => random.below(12),
    }
}

/// Mostly a side that there is; among the others those that would be one if they were cut to fewer bits.
fn side(random: &mut Random) -> u64 {
    match random.below(60) {
        0 => 2,
        1 => u64::MAX - random.below(2),
        2 => random.below(2) + (1 << random.within(1, 63)),
        _ => random.below(2),
    }
}

/// Puts a number to an end of its range: a coefficient, a limit, all multipliers together, or the denominator.
fn to_an_end(random: &mut Random, claim: &mut Claim) {
    match random.below(5) {
        0 => {
            let end = either(random, &COEFFICIENTS);
            set(random, &mut claim.coefficients, end);
        }
        1 => {
            let end = either(random, &LIMITS);
            set(random, &mut claim.limits, end);
        }
        2 | 3 => together(random, &mut claim.multipliers, MULTIPLIERS),
        _ => claim.denominator = either(random, &DENOMINATORS),
    }
}

fn either<T: Copy>(random: &mut Random, range: &RangeInclusive<T>) -> T {
    [*range.start(), *range.end()][random.below(2) as usize]
}

/// Gives each marked node the smallest potential that holds, if any does.
fn fit(grounds: &Grounds, claim: &mut Claim) {
    let Some(smallest) = longest(grounds, &rests(grounds, claim)) else {
        return;
    };
    for (node, own) in claim.potentials.iter_mut().enumerate() {
        if grounds.nodes[node].marked {
            *own = smallest[node].clamp(i64::MIN.into(), i64::MAX.into()) as i64;
        }
    }
}

/// Adds the same to the potentials of all marked nodes, so that the largest is at the end of its range.
fn lift(grounds: &Grounds, claim: &mut Claim) {
    let marked = |node: &usize| grounds.nodes[*node].marked;
    let largest = (0..grounds.nodes.len())
        .filter(marked)
        .map(|node| claim.potentials[node])
        .max();
    let more = POTENTIALS.end().saturating_sub(largest.unwrap_or(0));
    for node in (0..grounds.nodes.len()).filter(marked) {
        claim.potentials[node] = claim.potentials[node].saturating_add(more);
    }
}

/// The four lists, of which now and then one or two have a wrong length. (Not more: with three, the wrong ones could fit together.)
pub fn lists(random: &mut Random, claim: &Claim) -> [Buffer; 4] {
    let wrong: Vec<u64> = (0..wrong_lengths(random)).map(|_| random.below(4)).collect();
    let lists = [
        &claim.coefficients,
        &claim.limits,
        &claim.multipliers,
        &claim.potentials,
    ];
    std::array::from_fn(|place| {
        let list = lists[place];
        let length = if wrong.contains(&(place as u64)) {
            just(random, list.len(), 3)
        } else {
            list.len()
        };
        Buffer::reads(random, list, list.len(), length)
    })
}

fn wrong_lengths(random: &mut Random) -> usize {
    match random.below(24) {
        0 | 1 => 1,
        2 => 2,
        _ => 0,
    }
}
