//! Bounds from facts, each with its certificate: a linear program says which multipliers are best, whole numbers are made of these, and the
//! proved function decides. What it does not accept is not told as a bound.

use crate::fact::Fact;
use crate::findings::Findings;
use crate::flow::Flow;
use crate::fractions::{fine, whole, Whole};
use crate::lp::program;
use crate::potentials::potentials;
use crate::solution::Solution;
use crate::solver::{solved, Unsolved};
use std::cmp::Reverse;
use veilbuzz::{bound, Certificate, Costs, Facts, Side};

/// A bound that the proved function has given, and the multipliers that it was shown.
pub struct Certified {
    pub bound: u64,
    pub whole: Whole,
}

/// Why there is none.
#[derive(Clone, Copy, Debug, PartialEq, Eq)]
pub enum Uncertified {
    Unsolved(Unsolved),
    /// The proved function accepts nothing that was made of the solver's numbers.
    Unaccepted,
    /// The solver finds that no bound follows from the facts.
    Boundless,
    /// The solver finds that no walk keeps all facts.
    Contradicting,
}

/// The best bound of a side that certificates show.
pub fn certified(findings: &Findings, costs: Costs, side: Side, facts: &[&Fact]) -> Result<Certified, Uncertified> {
    let flow = Flow::of(findings, costs, side);
    let values = match solved(&program(&flow, facts), facts.len()).map_err(Uncertified::Unsolved)? {
        Solution::Best(values) => values,
        Solution::None => return Err(Uncertified::Boundless),
        Solution::Endless => return Err(Uncertified::Contradicting),
    };
    let best = |all: Vec<Whole>| {
        let all = all.into_iter();
        let shown = all.filter_map(|whole| shown(findings, &flow, costs, side, facts, whole));
        match side {
            Side::High => shown.min_by_key(|certified| certified.bound),
            // the first of equal ones, as above
            Side::Low => shown.min_by_key(|certified| Reverse(certified.bound)),
        }
    };
    best(whole(&values))
        .or_else(|| best(fine(&values).into_iter().collect()))
        .ok_or(Uncertified::Unaccepted)
}

/// The bound that these multipliers show, if the proved function accepts what is made of them.
pub fn shown(
    findings: &Findings,
    flow: &Flow,
    costs: Costs,
    side: Side,
    facts: &[&Fact],
    whole: Whole,
) -> Option<Certified> {
    let certificate = Certificate {
        multipliers: &whole.multipliers,
        potentials: &potentials(flow, facts, &whole)?,
        denominator: whole.denominator,
    };
    let limits: Vec<i64> = facts.iter().map(|fact| fact.limit).collect();
    let facts = Facts {
        coefficients: &coefficients(flow.costs.len(), facts),
        limits: &limits,
    };
    let (chart, table) = (&findings.known.chart, findings.analysis.table());
    let bound = bound(chart, table, costs, side, facts, certificate).ok()?;
    Some(Certified { bound, whole })
}

/// Fact after fact, each in the order of the nodes.
fn coefficients(nodes: usize, facts: &[&Fact]) -> Vec<i64> {
    let mut all = vec![0; nodes * facts.len()];
    for (row, fact) in facts.iter().enumerate() {
        for (node, times) in &fact.coefficients {
            all[row * nodes + node] = *times;
        }
    }
    all
}
