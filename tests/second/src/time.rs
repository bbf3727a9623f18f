//! Times without a float unit: each float that is finite and not below zero is a whole number of the smallest one, 2^-1074, and so is each sum
//! of such, and each product with a whole number.

use crate::rounding::{nearest, DIGITS};
use crate::whole::Whole;

/// The bits of a float that hold its digits but the first, which is known, and the highest number in those between them and the sign.
const FRACTION: usize = DIGITS - 1;
const HIGHEST_EXPONENT: u64 = 0x7FF;

/// In units of 2^-1074, the largest finite float has so many binary digits: its own, and as many zeros as there are steps from exponent 1 to the
/// last but one.
const LONGEST: usize = DIGITS + HIGHEST_EXPONENT as usize - 2;

/// How many units of 2^-1074 a float holds; nothing if it is a NaN, infinite or below zero, which -0.0 is not.
pub fn units(float: f64) -> Option<Whole> {
    let bits = float.to_bits();
    let (negative, rest) = (bits >> 63 == 1, bits << 1 >> 1);
    let (exponent, fraction) = (rest >> FRACTION, rest & ((1 << FRACTION) - 1));
    if exponent == HIGHEST_EXPONENT || (negative && rest > 0) {
        return None;
    }
    Some(match exponent {
        0 => Whole::of(fraction, 0),
        _ => Whole::of(fraction | 1 << FRACTION, exponent as usize - 1),
    })
}

/// What a float holds that is not below zero and no NaN.
#[derive(Clone, Copy, Debug, PartialEq, Eq, PartialOrd, Ord)]
pub enum Time {
    /// In units of 2^-1074.
    Finite(Whole),
    Infinite,
}

impl Time {
    pub const ZERO: Time = Time::Finite(Whole::ZERO);

    /// So many units of 2^-1074, or the nearest number of them that is a float.
    pub fn rounded(exact: Whole) -> Time {
        let nearest = nearest(exact);
        if nearest.length() > LONGEST {
            return Time::Infinite;
        }
        Time::Finite(nearest)
    }

    /// The bits of the float that holds it.
    pub fn bits(self) -> u64 {
        let Time::Finite(units) = self else {
            return HIGHEST_EXPONENT << FRACTION;
        };
        let zeros = units.length().saturating_sub(DIGITS);
        let digits = units.without(zeros);
        assert_eq!(Whole::of(digits, zeros), units, "a float has these digits");
        // the first of 53 digits stands where the exponent does, and is the one that this has more than there are zeros
        ((zeros as u64) << FRACTION) + digits
    }
}
