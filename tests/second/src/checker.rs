//! Whether a lent table passes.

use crate::chart::Chart;
use crate::lent::Lent;
use crate::refusal::Refusal;
use crate::state::State;

/// Yes or no, or one of refusals 1 to 11.
pub fn check(bytes: &[u8], lent: Lent) -> Result<bool, Refusal> {
    let chart = Chart::read(bytes)?;
    let lent = lent.used(&chart).ok_or(Refusal::of(11))?;
    Ok(in_range(&chart, lent) && unmarked_rows_are_zero(&chart, lent) && covers(&chart, lent))
}

fn in_range(chart: &Chart, lent: Lent) -> bool {
    let most = chart.ways();
    lent.marks.iter().all(|&mark| mark <= 1)
        && lent.must.iter().all(|&age| age <= most)
        && lent.may.iter().all(|&age| age <= most)
}

fn unmarked_rows_are_zero(chart: &Chart, lent: Lent) -> bool {
    (0..chart.nodes.len())
        .filter(|&node| lent.marks[node] == 0)
        .all(|node| {
            let (must, may) = lent.rows(chart, node);
            must.iter().chain(may).all(|&age| age == 0)
        })
}

/// Whether the entry covers the start, and each arrow's target what its source becomes.
fn covers(chart: &Chart, lent: Lent) -> bool {
    let mut after = State::start(chart);
    if !holds(chart, lent, chart.header.entry, &after) {
        return false;
    }
    chart
        .nodes
        .iter()
        .enumerate()
        .filter(|&(number, _)| lent.marked(number))
        .all(|(number, node)| {
            let (must, may) = lent.rows(chart, number);
            after.pass_through(chart, node, must, may);
            node.arrows
                .targets()
                .iter()
                .all(|&target| holds(chart, lent, target, &after))
        })
}

/// Whether a node is marked, none of its must ages below the state's and none of its may ages above (rules 7.5 and 7.6).
fn holds(chart: &Chart, lent: Lent, node: usize, state: &State) -> bool {
    let (must, may) = lent.rows(chart, node);
    lent.marked(node)
        && must.iter().zip(&state.must).all(|(age, least)| age >= least)
        && may.iter().zip(&state.may).all(|(age, most)| age <= most)
}
