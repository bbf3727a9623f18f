use second::clock::ClockSheet;
use second::deadline::Deadline;
use std::fmt;

/// What a deadline is asked with beside a question to the totals, as C has it: a clock sheet, and a kind of deadline with both limits, whether
/// it has them or not.
#[derive(Clone, Copy)]
pub struct Sheet {
    pub period: f64,
    pub overhead: f64,
    pub kind: u64,
    pub earliest: f64,
    pub latest: f64,
}

impl Sheet {
    pub fn clock(self) -> ClockSheet {
        ClockSheet {
            period: self.period,
            overhead: self.overhead,
        }
    }

    /// Nothing for a kind that there is not.
    pub fn deadline(self) -> Option<Deadline> {
        Deadline::of(self.kind, self.earliest, self.latest)
    }
}

/// With the bits of each float, which is all that there is of a NaN.
impl fmt::Debug for Sheet {
    fn fmt(&self, text: &mut fmt::Formatter) -> fmt::Result {
        write!(text, "kind {}", self.kind)?;
        for (name, float) in [
            ("period", self.period),
            ("overhead", self.overhead),
            ("earliest", self.earliest),
            ("latest", self.latest),
        ] {
            write!(text, ", {name} {float:e} ({:016x})", float.to_bits())?;
        }
        Ok(())
    }
}
