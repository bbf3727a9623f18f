//! Costs, visits or times that the proved functions refuse, told at the line that says them.

use crate::findings::refused_in;
use crate::given::Given;
use crate::known::{Known, Limits, Visits};
use crate::number::told;
use crate::problem::{Problem, Problems};
use crate::source::Span;
use crate::time::microseconds;
use crate::trouble::Trouble;
use crate::words::counted;
use veilbuzz::{Costs, Refusal};

pub fn misgiven(known: &Known, given: &Given, refusal: Refusal) -> Trouble {
    let problem = match refusal.number {
        15 => costs(known, given),
        16 => visits(known, refusal.place, swapped),
        17 => visits(known, refusal.place, unreached),
        18 => times(known),
        _ => None,
    };
    match (&known.text, problem) {
        (Some(text), Some(problem)) => Trouble::Text(text.source.clone(), Problems::one(problem)),
        _ => refused_in(known, refusal),
    }
}

fn costs(known: &Known, given: &Given) -> Option<Problem> {
    let Costs { hit, miss } = given.costs;
    let span = known.text.as_ref()?.costs.filter(|_| !given.at_the_call)?;
    Some(Problem {
        code: "refused-15",
        span,
        found: format!("a miss costs {miss} and a hit {hit}: the miss costs less"),
        may: "a miss cost of at least the hit cost".into(),
        mend: Some(format!("write 'hit {miss} miss {hit}', if the two were swapped")),
    })
}

/// A problem of a node's visits: of what is said, by its name and at its place.
fn visits(known: &Known, node: usize, problem: fn(&str, Visits, Span) -> Problem) -> Option<Problem> {
    let span = (*known.text.as_ref()?.visits.get(node)?)?;
    let node = known.nodes.get(node)?;
    Some(problem(&told(&node.name), node.visits?, span))
}

fn swapped(name: &str, visits: Visits, span: Span) -> Problem {
    let Visits { floor, ceiling } = visits;
    Problem {
        code: "refused-16",
        span,
        found: format!("the least visits of '{name}', {floor}, are more than the most, {ceiling}"),
        may: "a least that is no more than the most".into(),
        mend: Some(format!("write 'visits {ceiling}..{floor}', if the two were swapped")),
    }
}

fn unreached(name: &str, visits: Visits, span: Span) -> Problem {
    let Visits { floor, ceiling } = visits;
    Problem {
        code: "refused-17",
        span,
        found: format!(
            "'{name}' is to have at least {}, and no walk comes there",
            counted(floor.into(), "visit")
        ),
        may: format!("'visits 0', or 'visits 0..{ceiling}'"),
        mend: Some(format!("look for a missing arrow to '{name}', or write 'visits 0'")),
    }
}

/// Times that can be said and cannot be: a period of 0, or a window that ends before it begins (rule 11.18).
fn times(known: &Known) -> Option<Problem> {
    let text = known.text.as_ref()?;
    let problem = |span, found, may: &str, mend| Problem {
        code: "refused-18",
        span,
        found,
        may: may.into(),
        mend: Some(mend),
    };
    if known.clock?.period.femtoseconds() == 0 {
        let mend = "write how long a cycle takes, as 'period 0.125 us' at 8 MHz".into();
        return Some(problem(
            text.clock?,
            "a cycle is to take no time".into(),
            "a period above 0",
            mend,
        ));
    }
    let Limits { earliest, latest } = known.limits?;
    let [earliest, latest] = [earliest?, latest].map(|time| microseconds(time.femtoseconds()));
    Some(problem(
        text.deadline?,
        format!("the latest time, {latest} us, is before the earliest, {earliest} us"),
        "a latest time that is no earlier than the earliest",
        format!("write 'earliest {latest} us latest {earliest} us', if the two were swapped"),
    ))
}
