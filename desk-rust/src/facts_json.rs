//! What the facts of a text give, for scripts.

use crate::bounded::Bounded;
use crate::certify::{Certified, Uncertified};
use crate::json::{list, object, Value};
use crate::solver::Unsolved;
use crate::totals::Totals;
use crate::weights::{Weight, Worth};
use crate::weights_table::{line, misses, text};

pub fn facts(totals: &Totals, bounded: &Bounded) -> Value {
    let nodes = totals.findings.known.nodes.iter().enumerate();
    let without: Vec<usize> = nodes
        .filter(|(_, node)| node.visits.is_none())
        .map(|(number, _)| number)
        .collect();
    object([
        ("low", side(&bounded.low)),
        ("high", side(&bounded.high)),
        (
            "carry_weight",
            list(bounded.weights.iter().map(|each| weight(totals, each))),
        ),
        ("no_weight", bounded.without_weight.into()),
        ("without_visits", totals.findings.briefs_json(&without)),
    ])
}

pub fn side(side: &Result<Certified, Uncertified>) -> Value {
    let certified = side.as_ref().ok();
    object([
        ("bound", certified.map(|certified| certified.bound).into()),
        (
            "denominator",
            certified.map(|certified| certified.whole.denominator).into(),
        ),
        ("why_not", side.as_ref().err().map(|why| why_not(*why)).into()),
    ])
}

fn why_not(why: Uncertified) -> &'static str {
    match why {
        Uncertified::Unsolved(Unsolved::Missing) => "no-solver",
        Uncertified::Unsolved(Unsolved::Unwritten) => "no-files",
        Uncertified::Unsolved(Unsolved::Failed) => "no-solution",
        Uncertified::Unaccepted => "not-accepted",
        Uncertified::Boundless => "no-bound",
        Uncertified::Contradicting => "contradicting",
    }
}

fn weight(totals: &Totals, weight: &Weight) -> Value {
    let known = totals.findings.known;
    let by = match weight.worth {
        Some(Worth::By(more)) => Some(more),
        _ => None,
    };
    let node = weight.saying.visits_of;
    object([
        ("line", line(known, weight).into()),
        ("text", text(known, weight).into()),
        ("visits_of", node.map(|node| totals.findings.brief_json(node)).into()),
        ("at_most", (weight.at_most as u64).into()),
        ("at_least", (weight.at_least as u64).into()),
        ("worth", by.into()),
        ("misses", by.and_then(|more| misses(more, totals.costs)).into()),
        ("no_bound_without", (weight.worth == Some(Worth::All)).into()),
    ])
}
