use crate::answer::Answer;
use crate::raw;
use crate::Refusal;
use std::error::Error;
use std::fmt;

/// What a caller lends to [`analyse`]. What the buffers held before does not matter, and longer ones keep their tails.
pub struct Buffers<'a> {
    /// The block numbers, ascending: B are used.
    pub blocks: &'a mut [u32],
    /// The must ages on arrival, row after row, node by node: N * B are used.
    pub must: &'a mut [u8],
    /// The may ages, likewise.
    pub may: &'a mut [u8],
    /// 1 where a walk comes, else 0: N are used.
    pub marks: &'a mut [u8],
    /// The numbers of the classes, as [`Class::of`](crate::Class::of) reads them, two for each node, the first touch's first: 2 * N are used.
    pub classes: &'a mut [u8],
}

/// What a settled analysis returns.
#[derive(Clone, Copy, Debug, PartialEq, Eq)]
pub struct Settled {
    /// The passes made, the last one that changed nothing included.
    pub passes: usize,
    /// B.
    pub blocks: usize,
}

/// What an analysis returns that does not settle.
#[derive(Clone, Copy, Debug, PartialEq, Eq)]
pub enum Unsettled {
    /// One of refusals 1 to 11: no buffer has changed.
    Refused(Refusal),
    /// Refusal 12: so many passes were not enough. The blocks are written, and the other used parts are 0.
    Spent {
        allowance: usize,
        /// B.
        blocks: usize,
    },
}

impl From<Unsettled> for Refusal {
    fn from(unsettled: Unsettled) -> Refusal {
        match unsettled {
            Unsettled::Refused(refusal) => refusal,
            Unsettled::Spent { .. } => Refusal::SPENT,
        }
    }
}

impl fmt::Display for Unsettled {
    fn fmt(&self, text: &mut fmt::Formatter) -> fmt::Result {
        Refusal::from(*self).fmt(text)
    }
}

impl Error for Unsettled {}

/// Analyses a chart with at most `allowance` passes, or refuses it with one of 1 to 12. [`PASSES`](crate::PASSES) are enough for every
/// chart.
pub fn analyse(chart: &[u8], allowance: usize, lent: Buffers) -> Result<Settled, Unsettled> {
    // each pointer and its length are one slice's, and a slice that can be written overlaps no other
    let answer = Answer::<{ raw::ANALYSE_LENGTH }>::of(|answer, length| unsafe {
        raw::veilbuzz_analyse(
            chart.as_ptr(),
            chart.len(),
            allowance,
            lent.blocks.as_mut_ptr(),
            lent.blocks.len(),
            lent.must.as_mut_ptr(),
            lent.must.len(),
            lent.may.as_mut_ptr(),
            lent.may.len(),
            lent.marks.as_mut_ptr(),
            lent.marks.len(),
            lent.classes.as_mut_ptr(),
            lent.classes.len(),
            answer,
            length,
        )
    });
    let passes = answer.count(raw::ANALYSE_PASSES);
    let blocks = answer.count(raw::ANALYSE_BLOCKS);
    match answer.accepted() {
        Ok(_) => Ok(Settled { passes, blocks }),
        Err(Refusal::SPENT) => Err(Unsettled::Spent {
            allowance: passes,
            blocks,
        }),
        Err(refusal) => Err(Unsettled::Refused(refusal)),
    }
}
