//! Small charts, analysed and totalled: one set unless another number is said, 16-byte lines, and the blocks a to d of that set.

use charts::{Chart, Record};
use second::cache::{cost, Cache, Costs};
use second::chart;
use second::lending::Lending;
use second::limits::TOUCHES;
use second::totals::{Bounds, Totals};

pub const UNKNOWN: u64 = 0;
pub const EMPTY: u64 = 1;

pub const A: u64 = 0x00;
pub const B: u64 = 0x10;
pub const C: u64 = 0x20;
pub const D: u64 = 0x30;

pub const COSTS: Costs = Costs { hit: 1, miss: 10 };

/// A read of the last byte of a block and of the first byte behind it.
pub fn over(block: u64) -> Record {
    Record::read(block + 15).sized(1)
}

/// Some records in one set of so many ways.
pub fn one_set(records: &[Record], ways: u64, start: u64) -> Chart {
    Chart::of(records.to_vec()).shaped(0, ways, start)
}

/// The chart as the second program reads it.
pub fn read(chart: &Chart) -> chart::Chart {
    chart::Chart::read(&chart.bytes()).expect("the chart is accepted")
}

/// What the analysis leaves of a chart, in buffers just as long as used.
pub fn analysed(chart: &Chart) -> Lending {
    Lending::analysed(&chart.bytes(), &read(chart))
}

/// The classes of first touches, where no node makes a second one.
pub fn first_classes(chart: &Chart) -> Vec<u8> {
    assert!(read(chart).nodes.iter().all(|node| node.touches[1].is_none()));
    analysed(chart).classes.into_iter().step_by(TOUCHES).collect()
}

/// The low and the high total under a table.
pub fn totals(chart: &Chart, table: &Lending, floors: &[u16], ceilings: &[u16]) -> (u64, u64) {
    let Totals { low, high } = table
        .totals(&chart.bytes(), COSTS, Bounds { floors, ceilings })
        .expect("nothing is refused");
    (low, high)
}

/// The high total of the analysis's own table.
pub fn high(chart: &Chart, ceilings: &[u16]) -> u64 {
    totals(chart, &analysed(chart), &vec![0; ceilings.len()], ceilings).1
}

/// What the plain machine pays along a walk that finds the cache empty.
pub fn paid(chart: &Chart, walk: &[usize]) -> u64 {
    let chart = read(chart);
    cost(&chart, Cache::empty(chart.header.geometry), COSTS, walk).expect("it is a walk")
}
