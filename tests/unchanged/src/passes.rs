//! Passes over the nodes that are due, until one changes nothing.

use crate::due::Due;
use second::chart::Chart;
use second::state::State;
use second::table::Table;

/// One pass over the nodes that are due, in ascending order. A node is no longer due just before it sends, so that it can make itself due again;
/// one that becomes due at or behind the place where the pass is waits for the next pass. Whether anything changed.
fn pass(chart: &Chart, table: &mut Table, due: &mut Due, after: &mut State) -> bool {
    let mut changed = false;
    let mut from = 0;
    while let Some(number) = due.take(from) {
        from = number + 1;
        let (node, row) = (&chart.nodes[number], table.row(number));
        after.pass_through(chart, node, &table.must[row.clone()], &table.may[row]);
        for &target in node.arrows.targets() {
            if table.meet(target, after) {
                due.add(target);
                changed = true;
            }
        }
    }
    changed
}

/// Settles a cleared table. How many passes that took, with the one that changed nothing, unless the allowance ends before it.
pub fn settle(chart: &Chart, table: &mut Table, allowance: usize) -> Option<usize> {
    let mut state = State::start(chart);
    let mut due = Due::none(chart.nodes.len());
    table.meet(chart.header.entry, &state);
    due.add(chart.header.entry);
    (1..=allowance).find(|_| !pass(chart, table, &mut due, &mut state))
}
