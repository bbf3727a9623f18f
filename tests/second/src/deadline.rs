//! The deadline: two totals as times, whether they keep it, and refusal 18.

use crate::cache::Costs;
use crate::clock::{Clock, ClockSheet};
use crate::lent::Lent;
use crate::refusal::Refusal;
use crate::time::{units, Time};
use crate::totals::{totals, Bounds, Totals};

/// When a program has to be done, in microseconds.
#[derive(Clone, Copy, Debug)]
pub enum Deadline {
    None,
    Latest(f64),
    Window { earliest: f64, latest: f64 },
}

impl Deadline {
    /// The deadline that a number stands for, with as many of the limits as it has; nothing for a number that stands for none.
    pub fn of(kind: u64, earliest: f64, latest: f64) -> Option<Deadline> {
        match kind {
            0 => Some(Deadline::None),
            1 => Some(Deadline::Latest(latest)),
            2 => Some(Deadline::Window { earliest, latest }),
            _ => None,
        }
    }
}

/// The earliest and the latest time that keep a deadline. No time is below zero or above infinite.
struct Limits {
    earliest: Time,
    latest: Time,
}

impl Limits {
    /// Nothing if the deadline is impossible: a limit not finite or below zero, or no time between the two.
    fn of(deadline: Deadline) -> Option<Limits> {
        let limit = |float| units(float).map(Time::Finite);
        let (earliest, latest) = match deadline {
            Deadline::None => (Time::ZERO, Time::Infinite),
            Deadline::Latest(latest) => (Time::ZERO, limit(latest)?),
            Deadline::Window { earliest, latest } => (limit(earliest)?, limit(latest)?),
        };
        (earliest <= latest).then_some(Limits { earliest, latest })
    }
}

/// How long a walk within the bounds takes, at least and at most, and whether that keeps the deadline.
#[derive(Clone, Copy, Debug, PartialEq, Eq)]
pub struct Judged {
    pub low: Time,
    pub high: Time,
    pub met: bool,
}

/// The totals under a table that passes, judged; or one of refusals 1 to 11 and 13 to 18. Nothing in the place of a deadline stands for a kind that there is not.
pub fn deadline(
    bytes: &[u8],
    lent: Lent,
    costs: Costs,
    bounds: Bounds,
    sheet: ClockSheet,
    deadline: Option<Deadline>,
) -> Result<Judged, Refusal> {
    judged(totals(bytes, lent, costs, bounds), sheet, deadline)
}

/// Two totals judged; else what they were refused for, or refusal 18.
pub fn judged(
    totals: Result<Totals, Refusal>,
    sheet: ClockSheet,
    deadline: Option<Deadline>,
) -> Result<Judged, Refusal> {
    let totals = totals?;
    let clock = Clock::of(sheet).ok_or(Refusal::of(18))?;
    let limits = deadline.and_then(Limits::of).ok_or(Refusal::of(18))?;
    let (low, high) = (clock.figure(totals.low), clock.figure(totals.high));
    Ok(Judged {
        low,
        high,
        met: limits.earliest <= low && high <= limits.latest,
    })
}
