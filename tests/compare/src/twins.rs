//! Two arrows to one node, counted where a chart is refused for a record.

use crate::tally::Tally;
use charts::twins::{record_of, twins_alone};
use second::record::Record;
use veilbuzz::Refusal;

/// What such a chart has: two arrows to one node and no other fault in that record; the same with a record behind it that breaks another
/// rule, and with one before it, which is then the one that is told.
pub const TWINS: [&str; 3] = [
    "two arrows to one node",
    "two arrows to one node before another broken record",
    "two arrows to one node behind another broken record",
];

pub fn count(tally: &mut Tally, chart: &[u8], refusal: Refusal) {
    if refusal.number != 9 {
        return;
    }
    let nodes = chart.len() / 8 - 1;
    let twins = |node| twins_alone(record_of(chart, node), nodes);
    let otherwise = |node| Record::read(record_of(chart, node), nodes).is_none() && !twins(node);
    let mut behind = refusal.place + 1..nodes;
    let has = if twins(refusal.place) {
        [true, behind.any(otherwise), false]
    } else {
        [false, false, behind.any(twins)]
    };
    for (has, word) in has.into_iter().zip(TWINS) {
        tally.add_if(has, word);
    }
}
