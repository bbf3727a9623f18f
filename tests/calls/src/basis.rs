//! What the totals are asked of, and a bound: a chart, a table for it, and costs.

use crate::buffer::Buffer;
use crate::inputs;
use crate::tables::Table;
use charts::random::Random;
use second::cache::Costs;
use second::chart::Chart;

pub struct Basis {
    pub bytes: Vec<u8>,
    pub table: Table,
    pub costs: Costs,
}

impl Basis {
    pub fn of(random: &mut Random) -> Basis {
        let bytes = inputs::bytes(random, 6);
        let table = Table::of(random, &bytes, 6);
        let costs = costs(random);
        Basis { bytes, table, costs }
    }

    /// How many nodes the chart has, none if it is refused.
    pub fn nodes(&self) -> usize {
        Chart::read(&self.bytes).map_or(0, |chart| chart.nodes.len())
    }

    /// The costs as numbers of a call.
    pub fn numbers(&self) -> [u64; 2] {
        [self.costs.hit.into(), self.costs.miss.into()]
    }

    /// The buffers in the order of the parameters.
    pub fn buffers(self) -> Vec<Buffer> {
        let mut buffers = vec![Buffer::whole(&self.bytes)];
        buffers.extend(self.table.buffers);
        buffers
    }
}

/// A number of 16 bits, small or at an end as often as not.
pub fn number(random: &mut Random) -> u16 {
    match random.below(4) {
        0 => random.below(4) as u16,
        1 => u16::MAX - random.below(2) as u16,
        _ => random.below(1 << 16) as u16,
    }
}

/// A miss costs no less than a hit, but for once in sixteen times.
fn costs(random: &mut Random) -> Costs {
    let (one, other) = (number(random), number(random));
    match random.below(16) {
        0 => Costs { hit: one, miss: other },
        1 => Costs { hit: one, miss: one },
        2 => Costs {
            hit: one,
            miss: one.saturating_sub(1),
        },
        _ => Costs {
            hit: one.min(other),
            miss: one.max(other),
        },
    }
}
