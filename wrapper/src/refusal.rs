use crate::words::words;
use std::error::Error;
use std::fmt;

/// A refusal of section 11 of the rules, with 23 to 25 of section 18. Its text says what was found and what to do.
#[derive(Clone, Copy, Debug, PartialEq, Eq)]
pub struct Refusal {
    /// 1 to 18, or 23 to 25: nothing gives those between yet.
    pub number: usize,
    /// The node at fault for 9, 10, 16, 17 and 25, else 0.
    pub place: usize,
}

impl Refusal {
    /// That the passes allowed were not enough.
    pub const SPENT: Refusal = Refusal { number: 12, place: 0 };

    /// What was found; `None` for a number that nothing is refused with.
    pub fn found(&self) -> Option<&'static str> {
        words(self.number).map(|(found, _)| found)
    }

    /// What to do; `None` for a number that nothing is refused with.
    pub fn mend(&self) -> Option<&'static str> {
        words(self.number).map(|(_, mend)| mend)
    }
}

impl fmt::Display for Refusal {
    fn fmt(&self, text: &mut fmt::Formatter) -> fmt::Result {
        let Refusal { number, place } = self;
        write!(text, "refused {number} at {place}")?;
        match words(*number) {
            Some((found, mend)) => write!(text, ": {found} ({mend})"),
            None => Ok(()),
        }
    }
}

impl Error for Refusal {}
