//! Clock sheets and deadlines, drawn for totals, so that each limit often stands at a figure or just beside it.

use crate::sheet::Sheet;
use charts::random::Random;
use charts::random_times::{above_zero, any, bits, no_time, zero, INFINITE, SMALLEST_NORMAL};
use second::clock::{Clock, ClockSheet};
use veilbuzz::{Refusal, Totals};

/// The bits of a float but its exponent and its sign.
const FRACTION: u64 = SMALLEST_NORMAL - 1;

/// A sheet with a clock for these totals and limits for what they come to.
pub fn drawn(random: &mut Random, totals: Result<Totals, Refusal>) -> Sheet {
    let total = totals.map_or(1, |totals| [totals.low, totals.high][random.below(2) as usize]);
    let clock = clock(random, total);
    with_limits(random, totals, clock)
}

/// The bits of what both totals come to; 0 if there are none, or the clock is impossible.
pub fn figures(totals: Result<Totals, Refusal>, clock: ClockSheet) -> [u64; 2] {
    totals.map_or([0; 2], |totals| {
        [totals.low, totals.high].map(|total| figure(total, clock))
    })
}

fn figure(total: u64, clock: ClockSheet) -> u64 {
    Clock::of(clock).map_or(0, |clock| clock.figure(total).bits())
}

/// A sheet with this clock and limits for what the totals come to.
pub fn with_limits(random: &mut Random, totals: Result<Totals, Refusal>, clock: ClockSheet) -> Sheet {
    let kind = kind(random);
    let [low, high] = figures(totals, clock);
    let (earliest, latest) = match random.below(8) {
        // one point
        0 => {
            let figure = if random.once_in(2) { low } else { high };
            let point = limit(random, figure);
            (point, point)
        }
        // mostly the wrong way round
        1 => (limit(random, high), limit(random, low)),
        _ => (limit(random, low), limit(random, high)),
    };
    Sheet {
        period: clock.period,
        overhead: clock.overhead,
        kind,
        earliest,
        latest,
    }
}

/// A period, most often above zero, and an overhead that is nothing, or often of the size of their product with a total, or far below it.
pub fn clock(random: &mut Random, total: u64) -> ClockSheet {
    let period = match random.below(24) {
        0 => any(random),
        1 => zero(random),
        2 => no_time(random),
        _ => above_zero(random),
    };
    let overhead = match random.below(12) {
        0..=2 => zero(random),
        3 => any(random),
        4 => above_zero(random),
        _ => beside_the_product(random, period, total),
    };
    ClockSheet { period, overhead }
}

/// A time from 2^-60 times the product up to 2^3 times it, often of few digits, so that the sum is a tie now and then.
fn beside_the_product(random: &mut Random, period: f64, total: u64) -> f64 {
    let product = figure(total, ClockSheet { period, overhead: 0.0 });
    let exponent = ((product >> 52) + random.below(64)).saturating_sub(60).min(0x7FE);
    let zeros = random.below(53);
    f64::from_bits(exponent << 52 | (bits(random) & FRACTION) >> zeros << zeros)
}

/// No deadline, a latest time, a window; now and then a kind that there is not, also such as would be one if only 8 or 32 bits counted.
fn kind(random: &mut Random) -> u64 {
    const NONE_SUCH: [u64; 8] = [3, 4, 255, 256, 1 << 32, (1 << 32) + 1, 1 << 63, u64::MAX];
    match random.below(20) {
        0..=2 => 0,
        3..=8 => 1,
        9..=18 => 2,
        _ => NONE_SUCH[random.below(NONE_SUCH.len() as u64) as usize],
    }
}

/// A limit for a figure: at it, next to it, near it, at zero, anything.
fn limit(random: &mut Random, figure: u64) -> f64 {
    let near = match random.below(16) {
        0..=3 => figure,
        4 | 5 => figure.saturating_sub(1),
        // what is next to infinite is a NaN
        6 | 7 => figure + 1,
        8 => figure.saturating_sub(bits(random) >> random.within(8, 63)),
        9 | 10 => (figure + (bits(random) >> random.within(8, 63))).min(INFINITE),
        11 => zero(random).to_bits(),
        12 => any(random).to_bits(),
        13 => no_time(random).to_bits(),
        _ => above_zero(random).to_bits(),
    };
    f64::from_bits(near)
}
