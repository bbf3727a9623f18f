//! Changes of a claim: by little, past a range or just up to its end, and of the lengths of its lists.

use charts::random::Random;
use charts::Claim;
use second::grounds::Grounds;
use second::ranges::{COEFFICIENTS, DENOMINATORS, LIMITS, MULTIPLIERS, POTENTIALS};
use std::ops::RangeInclusive;

/// Any number of a list, if it has one.
fn any<'a>(random: &mut Random, list: &'a mut [i64]) -> Option<&'a mut i64> {
    let count = list.len() as u64;
    (count > 0).then(|| &mut list[random.below(count) as usize])
}

/// The marked nodes that have a potential.
fn marked(grounds: &Grounds, claim: &Claim) -> Vec<usize> {
    let marked = |&node: &usize| grounds.nodes.get(node).is_some_and(|ground| ground.marked);
    (0..claim.potentials.len()).filter(marked).collect()
}

/// One number more or less by one, or two potentials in each other's place.
pub fn near(random: &mut Random, grounds: &Grounds, claim: &mut Claim) {
    let marked = marked(grounds, claim);
    let one = if random.once_in(2) { 1 } else { -1 };
    let number = match random.below(12) {
        0..=4 if !marked.is_empty() => {
            let node = marked[random.below(marked.len() as u64) as usize];
            claim.potentials.get_mut(node)
        }
        5 | 6 => any(random, &mut claim.multipliers),
        7 => any(random, &mut claim.limits),
        8 => any(random, &mut claim.coefficients),
        9 => {
            claim.denominator = claim.denominator.wrapping_add_signed(one);
            None
        }
        10 => claim.potentials.get_mut(grounds.entry),
        _ => {
            let last = claim.potentials.len().saturating_sub(1);
            let other = random.below(last as u64 + 1) as usize;
            if last > 0 {
                claim.potentials.swap(other, last);
            }
            None
        }
    };
    if let Some(number) = number {
        *number = number.wrapping_add(one);
    }
}

/// The potential of one marked node, or of all of them, less by little or by much, with which few certificates hold.
pub fn lower(random: &mut Random, grounds: &Grounds, claim: &mut Claim) {
    let mut nodes = marked(grounds, claim);
    if random.once_in(2) {
        random.mix(&mut nodes);
        nodes.truncate(1);
    }
    let less = (random.below(1 << 30) >> random.below(30)) as i64;
    for node in nodes {
        claim.potentials[node] = claim.potentials[node].saturating_sub(less);
    }
}

/// A number at an end of a range, next to it on both sides, or far from it.
fn edge(random: &mut Random, range: RangeInclusive<i64>) -> i64 {
    let (low, high) = range.into_inner();
    let edges = [low, low - 1, low + 1, high, high + 1, high - 1];
    match random.below(10) as usize {
        6 => i64::MIN,
        7 => i64::MAX,
        8 => high.wrapping_mul(random.below(1 << 32) as i64),
        9 => high << random.below(8),
        edge => edges[edge],
    }
}

/// A number at the end of its range or past it; also the multipliers together, or all potentials so that the largest is the largest there is.
pub fn wide(random: &mut Random, grounds: &Grounds, claim: &mut Claim) {
    match random.below(9) {
        0 => {
            let most = *DENOMINATORS.end();
            let edges = [0, 1, most - 1, most, most + 1, 1 << 33, 1 << 63, u64::MAX];
            claim.denominator = edges[random.below(edges.len() as u64) as usize];
        }
        1 => put(random, &mut claim.coefficients, COEFFICIENTS),
        2 => put(random, &mut claim.limits, LIMITS),
        3 => put(random, &mut claim.potentials, POTENTIALS),
        4 => put(random, &mut claim.multipliers, 0..=MULTIPLIERS as i64),
        5 | 6 => together(random, claim),
        7 => around(random, claim),
        _ => lift(random, grounds, claim),
    }
}

/// Puts such a number somewhere in a list.
fn put(random: &mut Random, list: &mut [i64], range: RangeInclusive<i64>) {
    let number = edge(random, range);
    if let Some(place) = any(random, list) {
        *place = number;
    }
}

/// One fact more that says nothing, with a multiplier by which all together are as many as there may be, or one more or less.
fn together(random: &mut Random, claim: &mut Claim) {
    let sum: i128 = claim.multipliers.iter().map(|&multiplier| i128::from(multiplier)).sum();
    let left = MULTIPLIERS - sum + i128::from(random.below(3)) - 1;
    let nothing = vec![0; claim.potentials.len()];
    if let Ok(multiplier) = i64::try_from(left) {
        *claim = claim.clone().with(&nothing, 0, multiplier);
    }
}

/// Facts more that say nothing, with multipliers that come to little if only 64 bits of their sum count.
fn around(random: &mut Random, claim: &mut Claim) {
    let nothing = vec![0; claim.potentials.len()];
    let parts = match random.below(3) {
        0 => [i64::MAX, i64::MAX, 2],
        1 => [1 << 62, 1 << 62, i64::MIN],
        _ => [i64::MAX, i64::MIN, 1],
    };
    for part in parts {
        *claim = claim.clone().with(&nothing, 0, part);
    }
}

/// The same more for all potentials, so that the largest of a marked node is as large as it may be, or one more or less.
fn lift(random: &mut Random, grounds: &Grounds, claim: &mut Claim) {
    let nodes = marked(grounds, claim);
    let largest = nodes.iter().map(|&node| claim.potentials[node]).max().unwrap_or(0);
    let more = POTENTIALS.end().saturating_sub(largest).saturating_sub(1);
    let more = more.saturating_add(random.below(3) as i64);
    for node in nodes {
        claim.potentials[node] = claim.potentials[node].saturating_add(more);
    }
}

/// One list, or two that go together, of another length.
pub fn lengths(random: &mut Random, claim: &mut Claim) {
    let nodes = claim.potentials.len();
    let list = match random.below(6) {
        0 | 5 => &mut claim.coefficients,
        1 => &mut claim.limits,
        2 => &mut claim.multipliers,
        3 => &mut claim.potentials,
        // as many facts, without their coefficients
        _ => {
            claim.limits.push(0);
            claim.multipliers.push(0);
            return;
        }
    };
    let length = list.len();
    let other = match random.below(6) {
        0 => 0,
        1 | 2 => length.saturating_sub(1),
        3 => length + nodes,
        _ => length + 1,
    };
    list.resize(other, 0);
}
