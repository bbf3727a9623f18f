//! What holds of any deadline's figures, tried on what the archive has told.

use crate::expected::Timed;
use crate::same::{holds, Held};
use crate::sheet::Sheet;
use crate::tally::Tally;
use charts::random_times::halved;
use second::clock::{Clock, ClockSheet};
use second::time::{units, Time};
use second::whole::Whole;
use veilbuzz::Totals;

/// Figures of a period 2^-k without overhead, by k.
pub const EXACT: &str = "exact figures of a period 2^-k, k is";
/// The highest k of those that are asked for.
pub const MOST_HALVES: usize = 30;

/// How figures of two totals are counted: 0 the same, of one total; 1 the same, of two; 2 a larger one of a larger total.
pub const GROWTH: &str = "growth of figures";

/// How a walk's own figure is counted: 0 where the deadline is not met, 1 where it is, and so the walk keeps it.
pub const WALK: &str = "a walk's figure, and the deadline is met";

/// The k of a period that is 2^-k, with k from 0 to 30.
fn halves(period: f64) -> Option<usize> {
    (0..=MOST_HALVES).find(|&k| period == halved(k as u64))
}

/// Low and high figure are in order, and without a rounding where the period is a power of two.
pub fn hold(tally: &mut Tally, totals: Totals, sheet: Sheet, timed: Timed) -> Held {
    let mut grown = Grown::default();
    grown.add(totals, timed);
    grown.hold(tally, sheet.clock())?;
    let Some(k) = halves(sheet.period).filter(|_| sheet.overhead == 0.0) else {
        return Ok(());
    };
    for (total, figure) in [totals.low, totals.high].into_iter().zip(timed.figures) {
        let exact = Time::Finite(Whole::of(total, 1074 - k)).bits();
        holds(figure == exact, || {
            format!("{total} times 2^-{k} is {figure:016x}, and not {exact:016x}")
        })?;
    }
    tally.at(EXACT, k);
    Ok(())
}

/// Totals and their figures under one clock sheet.
#[derive(Default)]
pub struct Grown(Vec<(u64, u64)>);

impl Grown {
    pub fn add(&mut self, totals: Totals, timed: Timed) {
        self.0.extend([totals.low, totals.high].into_iter().zip(timed.figures));
    }

    /// Of a larger total the figure is no smaller, of the same it is the same. The order of floats above zero is that of their bits.
    pub fn hold(mut self, tally: &mut Tally, clock: ClockSheet) -> Held {
        self.0.sort();
        for pair in self.0.windows(2) {
            let [(less, figure), (more, larger)] = [pair[0], pair[1]];
            let grows = less < more && figure <= larger;
            holds(grows || pair[0] == pair[1], || {
                format!("{less} comes to {figure:016x} and {more} to {larger:016x}, of {clock:?}")
            })?;
            tally.at(GROWTH, usize::from(less < more) + usize::from(figure < larger));
        }
        Ok(())
    }
}

/// What a walk costs, as a figure, lies between the two; and where the deadline is met, it keeps that too.
pub fn walk(tally: &mut Tally, paid: u64, sheet: Sheet, timed: Timed) -> Held {
    let clock = Clock::of(sheet.clock()).ok_or("a figure was told of an impossible sheet")?;
    let own = clock.figure(paid);
    let [low, high] = timed.figures;
    let words = || {
        format!(
            "a walk costs {paid}, which comes to {:016x}, and has {timed:?}, of {sheet:?}",
            own.bits()
        )
    };
    holds(low <= own.bits() && own.bits() <= high, words)?;
    let limit = |float: f64| units(float).map(Time::Finite).ok_or_else(words);
    if timed.met && sheet.kind > 0 {
        holds(own <= limit(sheet.latest)?, words)?;
    }
    if timed.met && sheet.kind > 1 {
        holds(limit(sheet.earliest)? <= own, words)?;
    }
    tally.at(WALK, timed.met.into());
    Ok(())
}
