//! The limits of rule 1.4, and what follows from them. All that is no part of the proof takes them from here.

/// The most nodes of a chart.
pub const NODES: usize = 1024;

/// The most blocks of a chart.
pub const BLOCKS: usize = 64;

/// The most ways of a set.
pub const WAYS: usize = 8;

/// The most touches of a node.
pub const TOUCHES: usize = 2;

/// Must ages, or may ages, of a chart that has the most nodes and blocks.
pub const AGES: usize = NODES * BLOCKS;

/// Classes of a chart that has the most nodes.
pub const CLASSES: usize = TOUCHES * NODES;

/// The bytes of a chart of so many nodes.
pub const fn length(nodes: usize) -> usize {
    8 + 8 * nodes
}

/// The bytes of the longest chart.
pub const LONGEST: usize = length(NODES);

/// No accepted chart needs more passes.
pub const PASSES: usize = NODES * (1 + 2 * BLOCKS * WAYS) + 1;

/// In a chart of so many nodes no block needs more passes for its own table (rule 16.7): each but the last changes a node, and that can be
/// marked, touched, and get each other block.
pub const fn passes_of_a_block(nodes: usize) -> usize {
    nodes * (1 + BLOCKS) + 1
}
