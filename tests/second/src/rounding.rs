//! Rounding as floats are rounded: to the nearest, and at a tie to the even one.

use crate::whole::Whole;
use std::cmp::Ordering;

/// The binary digits that a float has.
pub const DIGITS: usize = 53;

/// Of the numbers that have no other digit than 0 behind their first 53, the nearest; of two that are equally near, the one whose 53rd is even.
pub fn nearest(exact: Whole) -> Whole {
    let cut = exact.length().saturating_sub(DIGITS);
    let digits = exact.without(cut);
    let (below, above) = (Whole::of(digits, cut), Whole::of(digits + 1, cut));
    // the middle of the two is half their sum, so that doubles are compared
    match exact.plus(exact).cmp(&below.plus(above)) {
        Ordering::Less => below,
        Ordering::Greater => above,
        Ordering::Equal if digits % 2 == 0 => below,
        Ordering::Equal => above,
    }
}
