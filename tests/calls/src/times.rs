//! The times that a deadline is asked with, as the bits of floats: any, and around the figures that come of them.

use charts::random::Random;
use charts::random_times::{above_zero, bits, no_time, zero, INFINITE, SMALLEST_NORMAL};
use second::clock::ClockSheet;
use second::deadline::{judged, Deadline};
use second::totals::Totals;

const LARGEST: u64 = f64::MAX.to_bits();

/// Twice as much has one of these more.
const DOUBLING: u64 = SMALLEST_NORMAL;

/// A clock sheet and a deadline, as numbers of a call in the order of the parameters.
pub struct Times {
    period: u64,
    overhead: u64,
    kind: u64,
    earliest: u64,
    latest: u64,
}

impl Times {
    /// Times for these totals. Once in some three times they are impossible.
    pub fn of(random: &mut Random, totals: Totals) -> Times {
        let size = size(random);
        let period = period(random, size);
        let [_, product] = figures(totals, period, 0);
        let overhead = overhead(random, size, product);
        let kind = kind(random);
        let [earliest, latest] = limits(random, kind, figures(totals, period, overhead));
        Times {
            period,
            overhead,
            kind,
            earliest,
            latest,
        }
    }

    pub fn numbers(&self) -> [u64; 5] {
        [self.period, self.overhead, self.kind, self.earliest, self.latest]
    }

    pub fn sheet(&self) -> ClockSheet {
        sheet(self.period, self.overhead)
    }

    /// Nothing for a kind that there is not.
    pub fn deadline(&self) -> Option<Deadline> {
        Deadline::of(self.kind, f64::from_bits(self.earliest), f64::from_bits(self.latest))
    }
}

fn sheet(period: u64, overhead: u64) -> ClockSheet {
    ClockSheet {
        period: f64::from_bits(period),
        overhead: f64::from_bits(overhead),
    }
}

/// The low and the high figure, 0 where the sheet is impossible.
fn figures(totals: Totals, period: u64, overhead: u64) -> [u64; 2] {
    let judged = judged(Ok(totals), sheet(period, overhead), Some(Deadline::None));
    judged.map_or([0; 2], |judged| [judged.low.bits(), judged.high.bits()])
}

/// How large the figures are: without all their digits, too large for a float, or any.
#[derive(Clone, Copy)]
enum Size {
    Tiny,
    Huge,
    Any,
}

fn size(random: &mut Random) -> Size {
    match random.below(6) {
        0 => Size::Tiny,
        1 => Size::Huge,
        _ => Size::Any,
    }
}

fn period(random: &mut Random, size: Size) -> u64 {
    match (random.below(24), size) {
        (0, _) => no_time_or_just_below(random),
        (1, _) => zero(random).to_bits(),
        (_, Size::Tiny) => tiny(random),
        (2..=5, Size::Huge) => LARGEST,
        (_, Size::Huge) => LARGEST - bits(random) % (45 * DOUBLING),
        (2..=13, Size::Any) => thousandths(random),
        (_, Size::Any) => above_zero(random).to_bits(),
    }
}

/// What is added to a product: mostly so that the sum is rounded anew.
fn overhead(random: &mut Random, size: Size, product: u64) -> u64 {
    match (random.below(24), size) {
        (0, _) => no_time_or_just_below(random),
        (1..=3, _) => zero(random).to_bits(),
        (_, Size::Tiny) => tiny(random),
        (4 | 5, Size::Huge) => LARGEST,
        (6..=8, Size::Huge) => LARGEST - bits(random) % DOUBLING,
        (4..=6, Size::Any) => thousandths(random),
        (7 | 8, Size::Any) => above_zero(random).to_bits(),
        // half of the product's last place: the sum lies in the middle between two floats
        (9..=12, _) => (product / DOUBLING * DOUBLING).saturating_sub(53 * DOUBLING) % INFINITE,
        // about as much as the product
        _ => (product + bits(random) % (5 * DOUBLING)).saturating_sub(3 * DOUBLING) % INFINITE,
    }
}

/// So many thousandths, which are seldom floats.
fn thousandths(random: &mut Random) -> u64 {
    (random.within(1, 20_000) as f64 / 1000.0).to_bits()
}

/// What is no time, and often just below 0.
fn no_time_or_just_below(random: &mut Random) -> u64 {
    let float = match random.below(8) {
        0 => -f64::from_bits(tiny(random)),
        _ => no_time(random),
    };
    float.to_bits()
}

/// Few of the smallest floats, and those around the first that has all its digits.
fn tiny(random: &mut Random) -> u64 {
    let length = random.below(22);
    match random.below(4) {
        0 => DOUBLING - 2 + random.below(4),
        _ => random.within(1, 2 << length),
    }
}

/// Mostly a kind that there is; among the others those that would be one if they were cut to fewer bits.
fn kind(random: &mut Random) -> u64 {
    match random.below(40) {
        0 => 3,
        1 => u64::MAX - random.below(2),
        2 => random.below(3) + (1 << random.within(2, 63)),
        3..=9 => 0,
        10..=19 => 1,
        _ => 2,
    }
}

/// The limits of a deadline of this kind, of a low and a high figure.
fn limits(random: &mut Random, kind: u64, [low, high]: [u64; 2]) -> [u64; 2] {
    match random.below(20) {
        0 => [zero(random), zero(random)].map(f64::to_bits),
        // a window of one time
        1 => [limit(random, true, high); 2],
        _ => [limit(random, kind == 2, low), limit(random, kind != 0, high)],
    }
}

/// A limit that is looked at or not, of a figure.
fn limit(random: &mut Random, looked_at: bool, figure: u64) -> u64 {
    match random.below(24) {
        0 | 1 => no_time_or_just_below(random),
        2..=12 if !looked_at => no_time_or_just_below(random),
        2 => zero(random).to_bits(),
        3 => LARGEST,
        4 => tiny(random),
        5 => above_zero(random).to_bits(),
        6..=10 => figure.saturating_sub(1),
        11..=14 => (figure + 1).min(LARGEST),
        // where the figure is infinite, the last before it
        _ => figure.min(LARGEST),
    }
}
