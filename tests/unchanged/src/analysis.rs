//! The analysis, by the second program's words.

use crate::classes::classes;
use crate::kept::kept;
use crate::passes::settle;
use second::analysis::{used, Analysed, Buffers};
use second::chart::Chart;
use second::lending::Lending;
use second::limits::TOUCHES;
use second::refusal::Refusal;

/// Analyses a chart with so many passes allowed.
pub fn analyse(bytes: &[u8], allowance: usize, lent: Buffers) -> Analysed {
    let chart = match Chart::read(bytes) {
        Ok(chart) => chart,
        Err(refusal) => return Analysed::Refused(refusal),
    };
    let Some((list, mut table, told)) = used(&chart, lent) else {
        return Analysed::Refused(Refusal::of(11));
    };
    let blocks = chart.blocks.len();
    list.copy_from_slice(&chart.blocks);
    table.clear();
    let Some(passes) = settle(&chart, &mut table, allowance) else {
        table.clear();
        told.fill(0);
        return Analysed::Unsettled { allowance, blocks };
    };
    let kept = kept(&chart, table.marks);
    for (node, told) in told.chunks_exact_mut(TOUCHES).enumerate() {
        let both = classes(&chart, &table, kept[node], node);
        told.copy_from_slice(&both.map(|class| class as u8));
    }
    Analysed::Settled { passes, blocks }
}

/// The same in buffers of one's own.
pub fn analyse_lending(lent: &mut Lending, chart: &[u8], allowance: usize) -> Analysed {
    let buffers = Buffers {
        blocks: &mut lent.blocks,
        must: &mut lent.must,
        may: &mut lent.may,
        marks: &mut lent.marks,
        classes: &mut lent.classes,
    };
    analyse(chart, allowance, buffers)
}
