//! The two totals, and refusals 13 to 17.

use crate::cache::Costs;
use crate::chart::Chart;
use crate::checker::check;
use crate::class::Class;
use crate::kept::Kept;
use crate::lent::Lent;
use crate::refusal::Refusal;

/// How often a walk visits each node, at least and at most (rule 10.1).
#[derive(Clone, Copy)]
pub struct Bounds<'a> {
    pub floors: &'a [u16],
    pub ceilings: &'a [u16],
}

/// What a walk within the bounds costs, at least and at most.
#[derive(Clone, Copy, Debug, PartialEq, Eq)]
pub struct Totals {
    pub low: u64,
    pub high: u64,
}

/// The totals under a table that passes, or one of refusals 1 to 11 and 13 to 17.
pub fn totals(bytes: &[u8], lent: Lent, costs: Costs, bounds: Bounds) -> Result<Totals, Refusal> {
    let chart = Chart::read(bytes)?;
    if !check(bytes, lent)? {
        return Err(Refusal::of(13));
    }
    refuse(&chart, lent, costs, bounds)?;
    Ok(sums(&chart, lent, costs, bounds))
}

/// Refusals 14 to 17.
fn refuse(chart: &Chart, lent: Lent, costs: Costs, bounds: Bounds) -> Result<(), Refusal> {
    let Bounds { floors, ceilings } = bounds;
    let nodes = chart.nodes.len();
    if floors.len() != nodes || ceilings.len() != nodes {
        return Err(Refusal::of(14));
    }
    if costs.miss < costs.hit {
        return Err(Refusal::of(15));
    }
    if let Some(node) = (0..nodes).find(|&node| floors[node] > ceilings[node]) {
        return Err(Refusal::at(16, node));
    }
    if let Some(node) = (0..nodes).find(|&node| floors[node] > 0 && !lent.marked(node)) {
        return Err(Refusal::at(17, node));
    }
    Ok(())
}

/// What the touches of marked nodes add, and what comes to the high total once for each block that has kept ones (rule 10.4). The largest sum
/// is that of the most classes, times the square of 65,535.
fn sums(chart: &Chart, lent: Lent, costs: Costs, bounds: Bounds) -> Totals {
    let kept = Kept::of(chart);
    let mut totals = Totals { low: 0, high: 0 };
    // the blocks that are kept where a walk may come
    let mut loaded = vec![false; chart.blocks.len()];
    for (number, node) in chart.nodes.iter().enumerate() {
        let (floor, ceiling) = (bounds.floors[number], bounds.ceilings[number]);
        for (m, class) in node.touched().zip(Class::of(chart, lent, &kept, number)) {
            let (least, most) = class.costs(costs);
            loaded[m] |= class == Class::Kept && ceiling > 0;
            totals.low += u64::from(floor) * u64::from(least);
            totals.high += u64::from(ceiling) * u64::from(most);
        }
    }
    let once = loaded.into_iter().filter(|&loaded| loaded).count() as u64;
    totals.high += once * u64::from(costs.miss - costs.hit);
    totals
}
