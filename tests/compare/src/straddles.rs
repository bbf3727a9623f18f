//! References to more than one byte, and to two blocks, that a walk comes to, counted.

use crate::kept::members;
use crate::table::Table;
use crate::tally::Tally;
use charts::twins::record_of;
use charts::Record;
use second::chart::Chart;
use second::limits::TOUCHES;
use second::one_block::OneBlock;

/// Charts by the kind and the size code of a reference: 0 to 2 for reads, 3 to 5 for writes.
pub const SIZE: &str = "a reference by its kind and its size code";

/// Charts by where the two blocks of a node lie: 0 in one set, 1 in a set and the next, 2 in the last set and set 0.
pub const SETS: &str = "two blocks of a node by their sets";

/// Charts by the two classes of a node that touches two blocks: 0 to 3 for hit, miss, unsure and kept after a hit, 4 to 7 after a miss, and so on.
pub const BOTH: &str = "two classes of a node";
pub const PAIRS: usize = 4 * 4;

/// What such nodes may be like, and charts without one.
pub const LIKE: [&str; 6] = [
    "with one way a second touch that throws the first block out",
    "a second touch of another class than it would have on arrival",
    "the last two blocks that there are, touched by one node",
    "more than one byte from the first address on",
    "more than one byte up to the last address",
    "no node that touches two blocks",
];

/// What a settled chart has, with the table and the classes that the analysis has written, and what is held of its blocks.
pub fn count(tally: &mut Tally, bytes: &[u8], chart: &Chart, tightest: &Table, held: &[OneBlock], classes: &[u8]) {
    let (mut size, mut sets, mut both) = ([false; 6], [false; 3], [false; PAIRS]);
    let mut has = [false; LIKE.len()];
    for node in (0..chart.nodes.len()).filter(|&node| tightest.marks[node] == 1) {
        let record = Record::of_bytes(record_of(bytes, node));
        if record.kind > 0 {
            size[(3 * (record.kind - 1) + record.size) as usize] = true;
            has[3] |= record.size > 0 && record.address == 0;
            has[4] |= record.size > 0 && record.address + (1 << record.size) == 1 << 32;
        }
        let [Some(lower), Some(upper)] = chart.nodes[node].touches else {
            continue;
        };
        let one_set = chart.sets[lower] == chart.sets[upper];
        let wraps = chart.sets[lower] > chart.sets[upper];
        sets[if one_set { 0 } else { 1 + usize::from(wraps) }] = true;
        let [first, second] = [0, 1].map(|touch| classes[TOUCHES * node + touch]);
        both[4 * row(first) + row(second)] = true;
        has[0] |= one_set && chart.ways() == 1;
        has[1] |= second != on_arrival(chart, tightest, held, node, upper);
        has[2] |= chart.blocks[upper] == u32::MAX >> chart.header.geometry.line;
    }
    has[5] = sets == [false; 3];
    for (has, like) in has.into_iter().zip(LIKE) {
        tally.add_if(has, like);
    }
    for (word, numbers) in [(SIZE, &size[..]), (SETS, &sets), (BOTH, &both)] {
        for number in (0..numbers.len()).filter(|&number| numbers[number]) {
            tally.at(word, number);
        }
    }
}

/// Where a class of a touch stands in the order of `BOTH`.
fn row(class: u8) -> usize {
    let rows = [1, 2, 3, 5];
    rows.into_iter()
        .position(|number| number == class)
        .expect("a touch of a reached node has one of these classes")
}

/// The number of the class that a touch of a block would have if it were its node's first.
fn on_arrival(chart: &Chart, table: &Table, held: &[OneBlock], node: usize, block: usize) -> u8 {
    let cell = node * chart.blocks.len() + block;
    match (table.must[cell], table.may[cell]) {
        (must, _) if must < chart.ways() => 1,
        (_, may) if may == chart.ways() => 2,
        _ if members(held, node, block) < chart.ways().into() => 5,
        _ => 3,
    }
}
