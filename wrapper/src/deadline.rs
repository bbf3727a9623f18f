use crate::answer::Answer;
use crate::check::Table;
use crate::raw;
use crate::total::{Bounds, Costs};
use crate::Refusal;

/// How long a cycle takes, and what is added once, both in microseconds (rule 17.1). Totals are of touches: all else that takes time has to be
/// in what is added.
#[derive(Clone, Copy, Debug, PartialEq)]
pub struct ClockSheet {
    pub period: f64,
    pub overhead: f64,
}

/// No limit, a latest time, or an earliest and a latest time, in microseconds (rule 17.2). A limit is itself still met.
#[derive(Clone, Copy, Debug, PartialEq)]
pub enum Deadline {
    None,
    Latest(f64),
    Window { earliest: f64, latest: f64 },
}

/// Whether the deadline is met, and the two totals in microseconds: each times the period, rounded, and that plus the overhead, rounded once
/// more (rule 17.3). One that is too large is infinity.
#[derive(Clone, Copy, Debug, PartialEq)]
pub struct Judged {
    pub met: bool,
    pub low: f64,
    pub high: f64,
}

impl Deadline {
    /// Its kind, and a limit in each place, 0 where it has none.
    fn told(self) -> (u64, f64, f64) {
        match self {
            Deadline::None => (raw::DEADLINE_NONE, 0.0, 0.0),
            Deadline::Latest(latest) => (raw::DEADLINE_LATEST, 0.0, latest),
            Deadline::Window { earliest, latest } => (raw::DEADLINE_WINDOW, earliest, latest),
        }
    }
}

/// Whether the totals under a table that passes, of costs in cycles, meet a deadline, or one of refusals 1 to 11 and 13 to 18.
pub fn deadline(
    chart: &[u8],
    table: Table,
    costs: Costs,
    bounds: Bounds,
    sheet: ClockSheet,
    deadline: Deadline,
) -> Result<Judged, Refusal> {
    let (kind, earliest, latest) = deadline.told();
    let mut figures = [0.0; raw::FIGURES_LENGTH];
    // each pointer and its length are one slice's; the two lists that are written are of this function and the one below it
    let answer = Answer::<{ raw::DEADLINE_LENGTH }>::of(|answer, length| unsafe {
        raw::veilbuzz_deadline(
            chart.as_ptr(),
            chart.len(),
            table.must.as_ptr(),
            table.must.len(),
            table.may.as_ptr(),
            table.may.len(),
            table.marks.as_ptr(),
            table.marks.len(),
            costs.hit,
            costs.miss,
            bounds.floors.as_ptr(),
            bounds.floors.len(),
            bounds.ceilings.as_ptr(),
            bounds.ceilings.len(),
            sheet.period,
            sheet.overhead,
            kind,
            earliest,
            latest,
            figures.as_mut_ptr(),
            figures.len(),
            answer,
            length,
        )
    })
    .accepted()?;
    let [low, high] = figures;
    Ok(Judged {
        met: answer.number(raw::DEADLINE_MET) == 1,
        low,
        high,
    })
}
