use crate::answer::Answer;
use crate::raw;
use crate::Refusal;

/// Writes the block numbers of a chart, ascending, to a buffer of B places or more, and returns B, or one of refusals 1 to 11. A longer
/// buffer keeps its tail; after a refusal it is as it was.
pub fn blocks(chart: &[u8], blocks: &mut [u32]) -> Result<usize, Refusal> {
    // each pointer and its length are one slice's, and a slice that can be written overlaps no other
    let answer = Answer::<{ raw::BLOCKS_LENGTH }>::of(|answer, length| unsafe {
        raw::veilbuzz_blocks(
            chart.as_ptr(),
            chart.len(),
            blocks.as_mut_ptr(),
            blocks.len(),
            answer,
            length,
        )
    })
    .accepted()?;
    Ok(answer.count(raw::BLOCKS_COUNT))
}
