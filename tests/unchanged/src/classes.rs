//! The classes of a settled table.

use second::ages::{touch_may, touch_must};
use second::chart::Chart;
use second::class::Class;
use second::limits::TOUCHES;
use second::table::Table;

/// The classes of a node, one for each touch that it can make, by its table and by which of its touches are kept.
pub fn classes(chart: &Chart, table: &Table, kept: [bool; TOUCHES], node: usize) -> [Class; TOUCHES] {
    if !table.marked(node) {
        return [Class::Unreached; TOUCHES];
    }
    let row = table.row(node);
    let (must, may) = (&table.must[row.clone()], &table.may[row]);
    let known = |m: usize, kept: bool| Class::known(chart, must[m], may[m], kept);
    match chart.nodes[node].touches {
        [None, _] => [Class::None; TOUCHES],
        [Some(m), None] => [known(m, kept[0]), Class::None],
        [Some(lower), Some(upper)] => {
            // the second goes by the state after the first, in which these two blocks are a row that is touched like any other
            let sets = [lower, upper].map(|m| chart.sets[m]);
            let (mut musts, mut mays) = ([must[lower], must[upper]], [may[lower], may[upper]]);
            touch_must(&mut musts, &sets, 0);
            touch_may(&mut mays, &sets, chart.ways(), 0);
            [known(lower, kept[0]), Class::known(chart, musts[1], mays[1], kept[1])]
        }
    }
}
