//! Passes until one changes nothing.

use crate::chart::Chart;
use crate::state::State;
use crate::table::Table;

/// One pass over the nodes in ascending order. Whether it changed anything.
fn pass(chart: &Chart, table: &mut Table, after: &mut State) -> bool {
    let mut changed = false;
    for (number, node) in chart.nodes.iter().enumerate() {
        if !table.marked(number) {
            continue;
        }
        let row = table.row(number);
        after.pass_through(chart, node, &table.must[row.clone()], &table.may[row]);
        for &target in node.arrows.targets() {
            changed |= table.meet(target, after);
        }
    }
    changed
}

/// Settles a table, cleared or with what more it has to cover. How many passes that took, with the one that changed nothing, unless the
/// allowance ends before it.
pub fn settle(chart: &Chart, table: &mut Table, allowance: usize) -> Option<usize> {
    let mut state = State::start(chart);
    table.meet(chart.header.entry, &state);
    (1..=allowance).find(|_| !pass(chart, table, &mut state))
}
