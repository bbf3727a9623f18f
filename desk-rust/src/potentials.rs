//! The least potentials for which a certificate holds (rule 18.4), in whole numbers: at each node the most that a walk there is left with.

use crate::fact::Fact;
use crate::flow::Flow;
use crate::fractions::Whole;

/// The largest potential, also below 0 (rule 18.8).
const LARGEST: i128 = 1 << 60;

/// A potential for each node, 0 where no walk comes; nothing if there are none, since some loop leaves a walk with more at each turn, or if
/// they are past their range.
pub fn potentials(flow: &Flow, facts: &[&Fact], whole: &Whole) -> Option<Vec<i64>> {
    let left = left(flow, facts, whole);
    let mut most: Vec<Option<i128>> = vec![None; left.len()];
    most[flow.entry] = Some(left[flow.entry]);
    // as long as the longest walk without a loop, and once more
    for _ in 0..=left.len() {
        let mut changed = false;
        for (from, to) in flow.arrows() {
            let by_arrow = most[from].map(|most| most + left[to]);
            if by_arrow > most[to] {
                most[to] = by_arrow;
                changed = true;
            }
        }
        if !changed {
            let in_range = |most: &Option<i128>| most.is_none_or(|most| most.abs() <= LARGEST);
            let all = most.iter().map(|most| most.unwrap_or(0) as i64);
            return most.iter().all(in_range).then(|| all.collect());
        }
    }
    None
}

/// What a visit of each node is left with (rule 18.3).
fn left(flow: &Flow, facts: &[&Fact], whole: &Whole) -> Vec<i128> {
    let costs = flow.costs.iter();
    let mut left: Vec<i128> = costs
        .map(|cost| i128::from(*cost) * i128::from(whole.denominator))
        .collect();
    for (fact, multiplier) in facts.iter().zip(&whole.multipliers) {
        for (node, times) in &fact.coefficients {
            left[*node] -= i128::from(*multiplier) * i128::from(*times);
        }
    }
    left
}
