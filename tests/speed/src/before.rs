//! The analysis of another archive of the proved functions, such as the one before a change. Its functions have other names, and it is
//! linked only where `tests/speed/before` asks for it.

use crate::runs::Analysis;
use second::lending::Lending;
use second::limits::TOUCHES;

#[cfg(before)]
pub const BEFORE: Option<Analysis> = Some(linked::analyse);
#[cfg(not(before))]
pub const BEFORE: Option<Analysis> = None;

/// The numbers of two classes: before there was the one, what it says was called the other.
const KEPT: u8 = 5;
const UNSURE: u8 = 3;

/// Whether both have left the same, but for what an archive from before a change does not know. One that calls nothing kept calls it unsure. One
/// from before a node had two classes writes one for each node, into the first half of the buffer: of a chart whose nodes touch one block it is
/// the first of today's two.
pub fn agree(now: &Lending, before: &Lending) -> bool {
    let (mut now, mut before) = (now.clone(), before.clone());
    if !before.classes.contains(&KEPT) {
        let kept = now.classes.iter_mut().filter(|class| **class == KEPT);
        kept.for_each(|class| *class = UNSURE);
    }
    let first: Vec<u8> = now.classes.iter().copied().step_by(TOUCHES).collect();
    if before.classes.starts_with(&first) {
        before.classes.clone_from(&now.classes);
    }
    now == before
}

#[cfg(before)]
mod linked {
    use second::analysis::Analysed;
    use second::lending::Lending;
    use second::refusal::Refusal;
    use veilbuzz::raw::{ANALYSE_BLOCKS, ANALYSE_LENGTH, ANALYSE_PASSES, PLACE};

    extern "C" {
        fn before_veilbuzz_analyse(
            chart: *const u8,
            chart_length: usize,
            allowance: usize,
            blocks: *mut u32,
            blocks_length: usize,
            must: *mut u8,
            must_length: usize,
            may: *mut u8,
            may_length: usize,
            marks: *mut u8,
            marks_length: usize,
            classes: *mut u8,
            classes_length: usize,
            answer: *mut u64,
            answer_length: usize,
        ) -> u64;
    }

    pub fn analyse(lent: &mut Lending, chart: &[u8], allowance: usize) -> Analysed {
        let mut answer = [0; ANALYSE_LENGTH];
        // each pointer and its length are one slice's, and no two of the lent buffers overlap
        let number = unsafe {
            before_veilbuzz_analyse(
                chart.as_ptr(),
                chart.len(),
                allowance,
                lent.blocks.as_mut_ptr(),
                lent.blocks.len(),
                lent.must.as_mut_ptr(),
                lent.must.len(),
                lent.may.as_mut_ptr(),
                lent.may.len(),
                lent.marks.as_mut_ptr(),
                lent.marks.len(),
                lent.classes.as_mut_ptr(),
                lent.classes.len(),
                answer.as_mut_ptr(),
                answer.len(),
            )
        };
        let [passes, blocks, place] = [ANALYSE_PASSES, ANALYSE_BLOCKS, PLACE].map(|at| answer[at] as usize);
        match number {
            0 => Analysed::Settled { passes, blocks },
            12 => Analysed::Unsettled {
                allowance: passes,
                blocks,
            },
            _ => Analysed::Refused(Refusal {
                number: number as usize,
                place,
            }),
        }
    }
}
