use std::cmp::Ordering;
use std::ops::{Add, Div, Mul, Neg, Sub};

/// A fraction of whole numbers, in its lowest terms, with a denominator above 0. What does not fit is a panic.
#[derive(Clone, Copy, Debug, PartialEq, Eq)]
pub struct Fraction {
    above: i128,
    below: i128,
}

/// The largest number that both are a multiple of; of 0 and another, that one.
fn common(one: i128, other: i128) -> i128 {
    if other == 0 {
        return one.abs();
    }
    common(other, one % other)
}

fn times(one: i128, other: i128) -> i128 {
    one.checked_mul(other).expect("the numbers are small")
}

impl Fraction {
    pub const ZERO: Fraction = Fraction { above: 0, below: 1 };
    pub const ONE: Fraction = Fraction { above: 1, below: 1 };

    pub fn of(above: i128, below: i128) -> Fraction {
        assert_ne!(below, 0, "nothing is divided by 0");
        let by = common(above, below) * below.signum();
        Fraction {
            above: above / by,
            below: below / by,
        }
    }

    pub fn whole(number: impl Into<i128>) -> Fraction {
        Fraction::of(number.into(), 1)
    }

    /// The smallest number above 0 that is a multiple of this one and makes the fraction a whole number.
    pub fn clearing(self, multiple: i128) -> i128 {
        times(multiple, self.below / common(multiple, self.below))
    }

    /// So many times the fraction, which is a whole number.
    pub fn times_whole(self, number: i128) -> i128 {
        assert_eq!(number % self.below, 0, "it is a whole number");
        times(self.above, number / self.below)
    }

    pub fn is_above_0(self) -> bool {
        self.above > 0
    }

    pub fn is_below_0(self) -> bool {
        self.above < 0
    }
}

impl Add for Fraction {
    type Output = Fraction;
    fn add(self, other: Fraction) -> Fraction {
        let by = common(self.below, other.below);
        let above = times(self.above, other.below / by) + times(other.above, self.below / by);
        Fraction::of(above, times(self.below, other.below / by))
    }
}

impl Neg for Fraction {
    type Output = Fraction;
    fn neg(self) -> Fraction {
        Fraction::of(-self.above, self.below)
    }
}

impl Sub for Fraction {
    type Output = Fraction;
    fn sub(self, other: Fraction) -> Fraction {
        self + -other
    }
}

impl Mul for Fraction {
    type Output = Fraction;
    fn mul(self, other: Fraction) -> Fraction {
        let (one, two) = (
            Fraction::of(self.above, other.below),
            Fraction::of(other.above, self.below),
        );
        Fraction::of(times(one.above, two.above), times(one.below, two.below))
    }
}

impl Div for Fraction {
    type Output = Fraction;
    fn div(self, other: Fraction) -> Fraction {
        self.mul(Fraction::of(other.below, other.above))
    }
}

impl PartialOrd for Fraction {
    fn partial_cmp(&self, other: &Fraction) -> Option<Ordering> {
        Some(self.cmp(other))
    }
}

impl Ord for Fraction {
    fn cmp(&self, other: &Fraction) -> Ordering {
        (*self - *other).above.cmp(&0)
    }
}
