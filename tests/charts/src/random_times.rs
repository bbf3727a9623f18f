//! Floats as they may stand on a clock sheet or in a deadline: any bits, and those near which something changes.

use crate::random::Random;

/// The bits of 1.0, of the smallest float that has all its digits, and of infinity; and the bit of a sign.
const ONE: u64 = 1.0_f64.to_bits();
/// The bits of the smallest float that has all its digits; so many more are twice as much.
pub const SMALLEST_NORMAL: u64 = 1 << 52;
pub const INFINITE: u64 = f64::INFINITY.to_bits();
const SIGN: u64 = 1 << 63;

/// 1.0 halved so many times, far from the smallest float.
pub const fn halved(times: u64) -> f64 {
    f64::from_bits(ONE - (times << 52))
}

/// Any 64 bits.
pub fn bits(random: &mut Random) -> u64 {
    random.below(1 << 32) << 32 | random.below(1 << 32)
}

fn any_of<const COUNT: usize>(random: &mut Random, list: [u64; COUNT]) -> u64 {
    list[random.below(COUNT as u64) as usize]
}

/// Digits behind the first: all of them any, or only some and then zeros, so that products and sums lie between two floats or just on one.
fn fraction(random: &mut Random) -> u64 {
    let zeros = if random.once_in(2) { 0 } else { random.below(53) };
    (bits(random) % SMALLEST_NORMAL) >> zeros << zeros
}

/// A finite float above zero: as data sheets have it, a power of two from 2^-30 to 1, about as large as those, without all its digits, near the
/// largest, any.
pub fn above_zero(random: &mut Random) -> f64 {
    let bits = match random.below(12) {
        0 | 1 => any_of(
            random,
            [0.125, 1.0 / 3.0, 0.1, 0.05, 0.2, 1.0, 2.5, 1000.0].map(f64::to_bits),
        ),
        2 | 3 => halved(random.within(0, 30)).to_bits(),
        4..=7 => halved(40).to_bits() + (random.below(64) << 52) + fraction(random),
        8 | 9 => {
            let edges = [1, 2, 3, SMALLEST_NORMAL - 1, SMALLEST_NORMAL, SMALLEST_NORMAL + 1];
            let (any, few) = (bits(random) % SMALLEST_NORMAL, random.within(1, 100));
            let edge = any_of(random, edges);
            any_of(random, [any.max(1), edge, few])
        }
        10 => {
            let beside = random.within(1, 3);
            let large = (random.below(64) << 52) + fraction(random) + 1;
            INFINITE - any_of(random, [beside, large])
        }
        _ => (bits(random) % INFINITE).max(1),
    };
    f64::from_bits(bits)
}

/// 0.0 or -0.0.
pub fn zero(random: &mut Random) -> f64 {
    f64::from_bits(any_of(random, [0, SIGN]))
}

/// What is no time: a NaN of any kind, an infinity, a float below zero.
pub fn no_time(random: &mut Random) -> f64 {
    let sign = any_of(random, [0, SIGN]);
    let bits = match random.below(3) {
        0 => {
            let (quiet, last) = (SMALLEST_NORMAL / 2, SMALLEST_NORMAL - 1);
            let payload = (bits(random) % SMALLEST_NORMAL).max(1);
            sign | INFINITE | any_of(random, [1, quiet - 1, quiet, quiet + 1, last, payload])
        }
        1 => sign | INFINITE,
        _ => SIGN | above_zero(random).to_bits(),
    };
    f64::from_bits(bits)
}

/// Any of these, and any bits.
pub fn any(random: &mut Random) -> f64 {
    match random.below(8) {
        0 => f64::from_bits(bits(random)),
        1 => zero(random),
        2 => no_time(random),
        _ => above_zero(random),
    }
}
