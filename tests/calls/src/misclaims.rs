//! Claims of which a number is another, or out of its range.

use charts::random::Random;
use charts::Claim;
use second::ranges::{COEFFICIENTS, DENOMINATORS, LIMITS, MULTIPLIERS, POTENTIALS};
use std::ops::RangeInclusive;

/// Changes one number, by little or to an end of its range or past it, or all multipliers, so that they come to too much.
pub fn change(random: &mut Random, claim: &mut Claim) {
    match random.below(20) {
        0..=5 => nudge(random, &mut claim.potentials),
        6 => nudge(random, &mut claim.coefficients),
        7 => nudge(random, &mut claim.multipliers),
        8 => nudge(random, &mut claim.limits),
        9 => claim.denominator += 1,
        10 | 11 => past(random, &mut claim.coefficients, &COEFFICIENTS),
        12 | 13 => past(random, &mut claim.limits, &LIMITS),
        14 | 15 => past(random, &mut claim.potentials, &POTENTIALS),
        16 => together(random, &mut claim.multipliers, MULTIPLIERS + 1),
        17 => set(random, &mut claim.multipliers, -1),
        // several such come to little, if what is too much for 64 bits is dropped
        18 => claim.multipliers.fill(i64::MAX),
        _ => claim.denominator = denominator(random, claim.denominator),
    }
}

/// Sets one number of a list, if it has any.
pub fn set(random: &mut Random, list: &mut [i64], number: i64) {
    if let Some(own) = any(random, list) {
        *own = number;
    }
}

/// Makes one multiplier such that all come to this.
pub fn together(random: &mut Random, multipliers: &mut [i64], sum: i128) {
    let all: i128 = multipliers.iter().map(|&own| i128::from(own)).sum();
    if let Some(own) = any(random, multipliers) {
        *own = (sum - (all - i128::from(*own))) as i64;
    }
}

fn any<'a>(random: &mut Random, list: &'a mut [i64]) -> Option<&'a mut i64> {
    let length = list.len() as u64;
    list.get_mut(random.below(length.max(1)) as usize)
}

/// More or less, mostly by one.
fn nudge(random: &mut Random, list: &mut [i64]) {
    let by = match random.below(3) {
        0 => random.within(2, 1 << 20) as i64,
        _ => 1,
    };
    let by = if random.once_in(2) { -by } else { by };
    if let Some(own) = any(random, list) {
        *own = own.saturating_add(by);
    }
}

/// Sets one number to an end of its range, to the next past it, or to the last of all.
fn past(random: &mut Random, list: &mut [i64], range: &RangeInclusive<i64>) {
    let (start, end) = (*range.start(), *range.end());
    let numbers = [start, start - 1, i64::MIN, end, end + 1, i64::MAX];
    let number = numbers[random.below(6) as usize];
    set(random, list, number);
}

/// None, and past the largest: what would be the same number if it were cut to 32 bits too.
fn denominator(random: &mut Random, own: u64) -> u64 {
    match random.below(4) {
        0 => 0,
        1 => DENOMINATORS.end() + 1,
        2 => u64::MAX - random.below(2),
        _ => own + (1 << random.within(33, 62)),
    }
}
