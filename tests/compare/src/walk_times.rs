use crate::deadlines;
use crate::laws::{self, Grown};
use crate::raw_deadline::Asked;
use crate::same::Held;
use crate::sheets;
use crate::tally::Tally;
use charts::random::Random;
use second::clock::ClockSheet;

/// What one walk costs, by one clock sheet, to be held to deadlines of totals that bound it, and their figures to one another.
pub struct WalkTimes {
    paid: u64,
    clock: ClockSheet,
    figures: Grown,
}

impl WalkTimes {
    pub fn of(random: &mut Random, paid: u64) -> WalkTimes {
        WalkTimes {
            paid,
            clock: sheets::clock(random, paid),
            figures: Grown::default(),
        }
    }

    /// Asks for a deadline of such totals.
    pub fn hold(&mut self, random: &mut Random, tally: &mut Tally, asked: &Asked) -> Held {
        let sheet = sheets::with_limits(random, asked.totals, self.clock);
        if let (Ok(totals), Some(timed)) = (asked.totals, deadlines::ask(random, tally, asked, sheet)?) {
            laws::walk(tally, self.paid, sheet, timed)?;
            self.figures.add(totals, timed);
        }
        Ok(())
    }

    pub fn end(self, tally: &mut Tally) -> Held {
        self.figures.hold(tally, self.clock)
    }
}
