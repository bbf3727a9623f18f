//! From a solver's floating-point numbers to whole numbers over one denominator.

/// Multipliers as whole numbers: each stands for itself divided by the denominator.
#[derive(Clone, Debug, PartialEq, Eq)]
pub struct Whole {
    pub denominator: u64,
    pub multipliers: Vec<i64>,
}

/// All multipliers together, and the denominator, are no larger (rule 18.8).
const MOST_TOGETHER: f64 = (1u64 << 36) as f64;
const MOST_DENOMINATOR: u64 = 1 << 32;

/// A fraction is as good as the number that it is for, if it differs by no more than this part of it: of a number as exact as can be, and of
/// one with a solver's noise.
const NEAREST: f64 = 1e-12;
const NEAR: f64 = 1e-9;

/// No fraction has a larger denominator: what a solver finds in charts has far smaller ones.
const LARGEST: u64 = 1 << 20;

/// A denominator for what has no small one.
const FINE: u64 = 1 << 20;

/// What the numbers may stand for: rounded to the nearest whole number, rounded up, and as fractions. Which of them make a certificate, and
/// which the best, is for others to find out.
pub fn whole(values: &[f64]) -> Vec<Whole> {
    let mut all = vec![
        over(1, values, f64::round),
        over(1, values, up),
        fractions(NEAREST, values),
        fractions(NEAR, values),
    ];
    all.dedup();
    all.into_iter().flatten().collect()
}

/// What they may stand for where none of these makes one: rounded up in fine steps.
pub fn fine(values: &[f64]) -> Option<Whole> {
    over(FINE, values, up)
}

/// Rounded up, but for what is a whole number as near as makes no difference.
fn up(value: f64) -> f64 {
    let nearest = value.round();
    match (value - nearest).abs() <= NEAR * value.abs().max(1.0) {
        true => nearest,
        false => value.ceil(),
    }
}

/// The values times a denominator, made whole; nothing where these are past their range.
fn over(denominator: u64, values: &[f64], whole: fn(f64) -> f64) -> Option<Whole> {
    let scaled = values.iter().map(|value| whole(value.max(0.0) * denominator as f64));
    let together: f64 = scaled.clone().sum();
    (together <= MOST_TOGETHER).then(|| Whole {
        denominator,
        multipliers: scaled.map(|value| value as i64).collect(),
    })
}

/// The values as fractions over the least denominator that all have in common, if it is in its range.
fn fractions(near: f64, values: &[f64]) -> Option<Whole> {
    let denominator = values.iter().try_fold(1, |common: u64, value| {
        let denominator = denominator(near, value.max(0.0))?;
        let common = (common / divisor(common, denominator)).checked_mul(denominator)?;
        (common <= MOST_DENOMINATOR).then_some(common)
    });
    over(denominator?, values, f64::round)
}

/// The greatest common divisor.
fn divisor(one: u64, other: u64) -> u64 {
    match other {
        0 => one,
        _ => divisor(other, one % other),
    }
}

/// The denominator of the first fraction near enough to a value, of those that its continued fraction gives.
fn denominator(near: f64, value: f64) -> Option<u64> {
    let (mut before, mut last) = (0, 1);
    let mut rest = value;
    loop {
        let whole = rest.floor();
        let numerator = (value * last as f64).round();
        if (value - numerator / last as f64).abs() <= near * value.max(1.0) {
            return Some(last);
        }
        rest = 1.0 / (rest - whole);
        let next = (rest.floor() as u64).checked_mul(last)?.checked_add(before)?;
        (before, last) = (last, next);
        if last > LARGEST {
            return None;
        }
    }
}
