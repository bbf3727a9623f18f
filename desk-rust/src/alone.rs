//! What one node touches, as the proved functions tell it of a chart of that node alone.

use veilbuzz::{blocks, chart_of, Fields, Heading, Refusal, TOUCHES};

/// The blocks that a node touches in a cache of this shape, in the order of its touches, or why the writer refuses it.
pub fn blocks_alone(shape: Heading, node: Fields) -> Result<Vec<u32>, Refusal> {
    let heading = Heading {
        nodes: 1,
        entry: 0,
        ..shape
    };
    let alone = Fields {
        outs: 0,
        first: 0,
        second: 0,
        ..node
    };
    let mut list = vec![0; TOUCHES];
    // a touch of two blocks is of the lower one first, and the list ascends
    let count = blocks(&chart_of(heading, &[alone])?, &mut list)?;
    list.truncate(count);
    Ok(list)
}
