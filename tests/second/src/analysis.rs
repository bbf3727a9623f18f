//! The analysis over lent buffers, and refusals 11 and 12.

use crate::chart::Chart;
use crate::class::Class;
use crate::kept::Kept;
use crate::limits::TOUCHES;
use crate::passes::settle;
use crate::refusal::Refusal;
use crate::table::Table;

/// What a caller lends. Each buffer may be longer than what is used of it; the rest of it stays as it was.
pub struct Buffers<'a> {
    pub blocks: &'a mut [u32],
    pub must: &'a mut [u8],
    pub may: &'a mut [u8],
    pub marks: &'a mut [u8],
    pub classes: &'a mut [u8],
}

#[derive(Clone, Copy, Debug, PartialEq, Eq)]
pub enum Analysed {
    Settled {
        passes: usize,
        blocks: usize,
    },
    /// Refusal 12, which tells the allowance and the number of blocks too.
    Unsettled {
        allowance: usize,
        blocks: usize,
    },
    /// Refusals 1 to 11: everything lent is as it was.
    Refused(Refusal),
}

/// Analyses a chart with so many passes allowed.
pub fn analyse(bytes: &[u8], allowance: usize, lent: Buffers) -> Analysed {
    let chart = match Chart::read(bytes) {
        Ok(chart) => chart,
        Err(refusal) => return Analysed::Refused(refusal),
    };
    let Some((list, mut table, classes)) = used(&chart, lent) else {
        return Analysed::Refused(Refusal::of(11));
    };
    let blocks = chart.blocks.len();
    list.copy_from_slice(&chart.blocks);
    table.clear();
    let Some(passes) = settle(&chart, &mut table, allowance) else {
        table.clear();
        classes.fill(0);
        return Analysed::Unsettled { allowance, blocks };
    };
    let kept = Kept::of(&chart);
    for (node, classes) in classes.chunks_exact_mut(TOUCHES).enumerate() {
        let both = Class::of(&chart, table.lent(), &kept, node);
        classes.copy_from_slice(&both.map(|class| class as u8));
    }
    Analysed::Settled { passes, blocks }
}

/// The parts that are used, or nothing if a buffer is shorter than its part.
pub fn used<'a>(chart: &Chart, lent: Buffers<'a>) -> Option<(&'a mut [u32], Table<'a>, &'a mut [u8])> {
    let (nodes, blocks) = (chart.nodes.len(), chart.blocks.len());
    let table = Table {
        blocks,
        must: lent.must.get_mut(..nodes * blocks)?,
        may: lent.may.get_mut(..nodes * blocks)?,
        marks: lent.marks.get_mut(..nodes)?,
    };
    let classes = lent.classes.get_mut(..TOUCHES * nodes)?;
    Some((lent.blocks.get_mut(..blocks)?, table, classes))
}
