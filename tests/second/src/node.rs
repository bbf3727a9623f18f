//! One node of a chart (rule 15.1).

use crate::chart::{records, Chart};
use crate::record::RecordFields;
use crate::refusal::Refusal;

/// What the record of a node holds, nothing if the chart has no such node, or one of refusals 1 to 10: the whole chart is read first.
pub fn node(bytes: &[u8], node: usize) -> Result<Option<RecordFields>, Refusal> {
    Chart::read(bytes)?;
    Ok(records(bytes).nth(node))
}
