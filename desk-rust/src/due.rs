//! What is due when: the two figures of a chart by its clock, and whether they keep to its deadline.
//!
//! Totals are judged by the proved function. It works in binary64, and rounds; here the same is worked out exactly, and a deadline counts as met
//! only if both say so. A bound that facts give has been proved too, and its figure is worked out here alone.

use crate::bounded::CROSSED;
use crate::counted::{counted, unjudged, By, Counted};
use crate::findings::Findings;
use crate::given::Given;
use crate::known::{Clock, Known, Limits};
use crate::misgiven::misgiven;
use crate::time::Time;
use crate::trouble::Trouble;
use crate::unwalked::unwalked;
use veilbuzz::{total, ClockSheet, Costs, Deadline, Side, Totals};

pub struct Due<'a> {
    pub findings: &'a Findings<'a>,
    pub costs: Costs,
    /// Whether a cost was given at the call, and not by the text.
    pub at_the_call: bool,
    pub clock: Clock,
    pub limits: Limits,
    /// Nothing where the visits of a node are not said.
    pub totals: Option<Totals>,
    /// What counts: the bound of each side, or the total where facts give none.
    pub low: Counted,
    pub high: Counted,
    /// What the proved function says, where totals count.
    pub proved: Option<bool>,
    /// Why facts give no bound of a side.
    pub sentences: Vec<String>,
}

impl<'a> Due<'a> {
    pub fn of(findings: &'a Findings, hit: Option<u16>, miss: Option<u16>) -> Result<Due<'a>, Trouble> {
        let known = findings.known;
        let (Some(clock), Some(limits)) = (known.clock, known.limits) else {
            return Err(missing(known));
        };
        let given = Given::of(known, hit, miss)?;
        let refused = |refusal| misgiven(known, &given, refusal);
        let (chart, table) = (&known.chart, findings.analysis.table());
        // where visits are not said whole, what is said can still be refused
        let judged = veilbuzz::deadline(chart, table, given.costs, given.bounds(), sheet(clock), asked(limits))
            .map_err(refused)?;
        let totals = total(chart, table, given.costs, given.bounds()).map_err(refused)?;
        let totals = Some(totals).filter(|_| given.whole);
        if let Some(why) = unwalked(findings) {
            return Err(unjudged(known, why));
        }
        let mut sentences = vec![];
        let mut side = |side| counted(findings, given.costs, clock, totals, side, &mut sentences);
        let (low, high) = (side(Side::Low)?, side(Side::High)?);
        if low.cycles > high.cycles {
            return Err(unjudged(known, CROSSED.into()));
        }
        Ok(Due {
            findings,
            costs: given.costs,
            at_the_call: given.at_the_call,
            clock,
            limits,
            totals,
            low,
            high,
            proved: (low.by == By::Total && high.by == By::Total).then_some(judged.met),
            sentences,
        })
    }

    /// By how many femtoseconds the high figure is too late, if it is.
    pub fn late(&self) -> Option<u128> {
        above(self.high.figure, self.limits.latest.femtoseconds())
    }

    /// By how many femtoseconds the low figure is too early, if it is.
    pub fn early(&self) -> Option<u128> {
        above(self.limits.earliest?.femtoseconds(), self.low.figure)
    }

    /// By how many femtoseconds even the low figure is too late, if it is.
    pub fn always_late(&self) -> Option<u128> {
        above(self.low.figure, self.limits.latest.femtoseconds())
    }

    /// Whether the exact figures keep to the limits.
    pub fn exactly_met(&self) -> bool {
        self.late().is_none() && self.early().is_none()
    }

    /// Whether the proved function, which rounds, comes to another verdict than the exact figures.
    pub fn rounding_decides(&self) -> bool {
        self.proved.is_some_and(|met| met != self.exactly_met())
    }

    pub fn met(&self) -> bool {
        self.exactly_met() && self.proved != Some(false)
    }
}

fn above(one: u128, other: u128) -> Option<u128> {
    one.checked_sub(other).filter(|more| *more > 0)
}

fn sheet(Clock { period, overhead }: Clock) -> ClockSheet {
    ClockSheet {
        period: period.binary64(),
        overhead: overhead.binary64(),
    }
}

fn asked(Limits { earliest, latest }: Limits) -> Deadline {
    let latest = latest.binary64();
    match earliest.map(Time::binary64) {
        None => Deadline::Latest(latest),
        Some(earliest) => Deadline::Window { earliest, latest },
    }
}

/// That a clock or a deadline is missing.
fn missing(known: &Known) -> Trouble {
    let mut needs = vec![];
    let mut mends = vec![];
    if known.clock.is_none() {
        needs.push("a line 'clock'");
        mends.push("'clock period 0.125 us overhead 2 us'");
    }
    if known.limits.is_none() {
        needs.push("a line 'deadline'");
        mends.push("'deadline latest 120 us'");
    }
    let text = if known.text.is_none() {
        "make a text of the chart, './desk text X.chart > X.txt'; "
    } else {
        ""
    };
    Trouble::Unanswered {
        what: format!("{}: a verdict needs {}", known.file, needs.join(" and ")),
        mend: format!("{text}add {}, with the times of your program", mends.join(" and ")),
    }
}
