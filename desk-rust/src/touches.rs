//! The blocks that a node touches, and their sets.

use crate::alone::blocks_alone;
use veilbuzz::{Fields, Header, Refusal};

#[derive(Clone, Copy, Debug, PartialEq, Eq)]
pub struct Touch {
    pub block: u32,
    pub set: u32,
}

/// The touches of a node in their order.
pub fn touches(header: &Header, node: &Fields) -> Result<Vec<Touch>, Refusal> {
    let touch = |block| Touch {
        block,
        set: block % (1 << header.sets),
    };
    Ok(blocks_alone((*header).into(), *node)?.into_iter().map(touch).collect())
}
