//! The cost of either side that a deadline is judged by: a bound that facts give, or else a total.

use crate::bounded::said;
use crate::certify::{certified, Uncertified};
use crate::facts_words::sentence;
use crate::findings::Findings;
use crate::given::without_visits;
use crate::known::{Clock, Known};
use crate::rests::facts;
use crate::time::figure;
use crate::trouble::Trouble;
use veilbuzz::{Costs, Side, Totals};

/// A cost in cycles, and what it comes to, in femtoseconds.
#[derive(Clone, Copy, Debug, PartialEq, Eq)]
pub struct Counted {
    pub by: By,
    pub cycles: u64,
    pub figure: u128,
}

/// Where a cost comes from.
#[derive(Clone, Copy, Debug, PartialEq, Eq)]
pub enum By {
    Total,
    Bound,
}

/// The cost of a side that counts: where there are facts it is the bound that they give, if they give one.
pub fn counted(
    findings: &Findings,
    costs: Costs,
    clock: Clock,
    totals: Option<Totals>,
    side: Side,
    sentences: &mut Vec<String>,
) -> Result<Counted, Trouble> {
    let counted = |by, cycles| Counted {
        by,
        cycles,
        figure: figure(cycles, clock.period, clock.overhead),
    };
    let name = match side {
        Side::Low => "low bound",
        Side::High => "high bound",
    };
    if let Some(sayings) = said(findings) {
        let all: Vec<_> = sayings.iter().collect();
        match certified(findings, costs, side, &facts(&all)) {
            Ok(certified) if !wider(certified.bound, totals, side) => return Ok(counted(By::Bound, certified.bound)),
            // made of a solver's numbers that are not the best
            Ok(_) => {}
            // of walks that there are not, all can be said
            Err(why @ Uncertified::Contradicting) => return Err(unjudged(findings.known, sentence(name, why))),
            Err(why) => {
                let instead = if totals.is_some() {
                    "; the total counts in its place"
                } else {
                    ""
                };
                sentences.push(sentence(name, why) + instead);
            }
        }
    }
    match (totals, side) {
        (Some(totals), Side::Low) => Ok(counted(By::Total, totals.low)),
        (Some(totals), Side::High) => Ok(counted(By::Total, totals.high)),
        (None, _) => Err(unjudged(
            findings.known,
            format!(
                "{}; and without the facts the visits of {} are needed",
                sentences.join("; "),
                without_visits(findings.known)
            ),
        )),
    }
}

/// Whether a bound says less than the total.
fn wider(bound: u64, totals: Option<Totals>, side: Side) -> bool {
    totals.is_some_and(|totals| match side {
        Side::Low => bound < totals.low,
        Side::High => bound > totals.high,
    })
}

/// That there is nothing to go by.
pub fn unjudged(known: &Known, why: String) -> Trouble {
    Trouble::Unanswered {
        what: format!("{}: whether the deadline is met cannot be told", known.file),
        mend: why,
    }
}
