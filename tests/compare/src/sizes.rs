//! Sizes and blocks, counted where a chart is refused for them.

use crate::tally::Tally;
use charts::sizes::{size_alone, touched_before, touched_by};
use charts::twins::record_of;
use charts::Record;
use second::limits::BLOCKS;
use veilbuzz::Refusal;

/// For what a record is refused whose size is all that is wrong with it, by its size code.
pub const NO_SIZE: &str = "a size code that there is not";
pub const SIZED_STEP: &str = "a bare step of size code";
pub const PAST_THE_END: &str = "a last byte past the last address, of size code";

/// Which block is one too many: 0 the only one of a node, 1 the lower, 2 the upper, 3 the upper where the lower is the last that fits.
pub const TOO_MANY: &str = "one block too many";

pub fn count(tally: &mut Tally, chart: &[u8], refusal: Refusal) {
    match refusal.number {
        9 => size(tally, record_of(chart, refusal.place), chart.len() / 8 - 1),
        10 => tally.at(TOO_MANY, too_many(chart, refusal.place)),
        _ => {}
    }
}

fn size(tally: &mut Tally, record: [u8; 8], nodes: usize) {
    if !size_alone(record, nodes) {
        return;
    }
    let Record { kind, size, .. } = Record::of_bytes(record);
    let word = match (kind, size) {
        (0, _) => SIZED_STEP,
        (_, 1 | 2) => PAST_THE_END,
        _ => NO_SIZE,
    };
    tally.at(word, size as usize);
}

fn too_many(chart: &[u8], node: usize) -> usize {
    let before = touched_before(chart, node);
    match touched_by(chart, node)[..] {
        [lower, _] if before.contains(&lower) => 2,
        [_, _] if before.len() < BLOCKS => 3,
        [_, _] => 1,
        _ => 0,
    }
}
