use crate::time::{units, Time};
use crate::whole::Whole;

/// The clock sheet: how long a cycle takes, and what comes to all of them once, in microseconds.
#[derive(Clone, Copy, Debug)]
pub struct ClockSheet {
    pub period: f64,
    pub overhead: f64,
}

/// The same in whole units of the smallest float.
#[derive(Clone, Copy)]
pub struct Clock {
    period: Whole,
    overhead: Whole,
}

impl Clock {
    /// Nothing if the sheet is impossible: the period 0, or one of the two not finite or below zero.
    pub fn of(sheet: ClockSheet) -> Option<Clock> {
        let clock = Clock {
            period: units(sheet.period)?,
            overhead: units(sheet.overhead)?,
        };
        (clock.period > Whole::ZERO).then_some(clock)
    }

    /// How long so many cycles take: their product with the period, rounded, and the sum of that and the overhead, rounded.
    pub fn figure(self, total: u64) -> Time {
        match Time::rounded(self.period.times(total)) {
            Time::Finite(product) => Time::rounded(product.plus(self.overhead)),
            Time::Infinite => Time::Infinite,
        }
    }
}
