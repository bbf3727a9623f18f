//! The tables that the checker and the totals are lent: of those that pass the tightest and the loosest, and some that almost pass.

use crate::buffer::Buffer;
use crate::lengths::around;
use charts::random::Random;
use second::chart::Chart;
use second::lending::Lending;
use second::lent::Lent;

/// A table in three buffers, which may be shorter or longer than it.
pub struct Table {
    /// Must ages, may ages and marks.
    pub buffers: [Buffer; 3],
    elements: [Vec<u8>; 3],
}

impl Table {
    /// A table for a chart, the tightest but once in so many times. A refused chart needs none.
    pub fn of(random: &mut Random, bytes: &[u8], turns: u64) -> Table {
        let table = match Chart::read(bytes) {
            Ok(chart) => table(random, bytes, &chart, turns),
            Err(_) => Lending::of(0, 0, 0),
        };
        let buffers = [&table.must, &table.may, &table.marks].map(|part| {
            let length = around(random, part.len());
            Buffer::reads(random, part, part.len(), length)
        });
        let elements = [0, 1, 2].map(|part: usize| buffers[part].elements());
        Table { buffers, elements }
    }

    /// The table as the second program takes it.
    pub fn lent(&self) -> Lent<'_> {
        let [must, may, marks] = &self.elements;
        Lent { must, may, marks }
    }

    pub fn marked(&self, node: usize) -> bool {
        self.elements[2].get(node) == Some(&1)
    }
}

/// A table of just the size that a chart needs.
fn table(random: &mut Random, bytes: &[u8], chart: &Chart, turns: u64) -> Lending {
    let mut table = Lending::analysed(bytes, chart);
    if !random.once_in(turns) {
        return table;
    }
    if random.once_in(2) {
        table.must.fill(chart.ways());
        table.may.fill(0);
        table.marks.fill(1);
    }
    if !random.once_in(4) {
        spoil(random, &mut table, chart.ways());
    }
    table
}

/// Changes one place, by little or to a number that no table has.
fn spoil(random: &mut Random, table: &mut Lending, ways: u8) {
    let change = random.below(4);
    let part = match random.below(3) {
        0 => &mut table.marks,
        1 => &mut table.must,
        _ => &mut table.may,
    };
    if part.is_empty() {
        return;
    }
    let place = random.below(part.len() as u64) as usize;
    part[place] = match change {
        0 => part[place].wrapping_sub(1),
        1 => part[place] + 1,
        2 => ways + 1,
        _ => random.below(256) as u8,
    };
}
