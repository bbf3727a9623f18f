//! The proved analysis, lent the same buffers and giving its answer in the same words as the second program's.

use second::analysis::Analysed;
use second::lending::Lending;
use second::refusal::Refusal;
use veilbuzz::{Buffers, Settled, Unsettled};

pub fn analyse(lent: &mut Lending, chart: &[u8], allowance: usize) -> Analysed {
    let buffers = Buffers {
        blocks: &mut lent.blocks,
        must: &mut lent.must,
        may: &mut lent.may,
        marks: &mut lent.marks,
        classes: &mut lent.classes,
    };
    match veilbuzz::analyse(chart, allowance, buffers) {
        Ok(Settled { passes, blocks }) => Analysed::Settled { passes, blocks },
        Err(Unsettled::Spent { allowance, blocks }) => Analysed::Unsettled { allowance, blocks },
        Err(Unsettled::Refused(refusal)) => Analysed::Refused(Refusal {
            number: refusal.number,
            place: refusal.place,
        }),
    }
}
