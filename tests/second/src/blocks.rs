//! The list of a chart's blocks (rule 15.2).

use crate::chart::Chart;
use crate::refusal::Refusal;

/// Writes the blocks, ascending, over the start of what is lent, and answers how many there are; or one of refusals 1 to 11, after which
/// what is lent is as it was.
pub fn blocks(bytes: &[u8], lent: &mut [u32]) -> Result<usize, Refusal> {
    let blocks = Chart::read(bytes)?.blocks;
    let used = lent.get_mut(..blocks.len()).ok_or(Refusal::of(11))?;
    used.copy_from_slice(&blocks);
    Ok(blocks.len())
}
