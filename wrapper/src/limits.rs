/// The most nodes of a chart.
pub const NODES: usize = 1024;

/// The most blocks of a chart.
pub const BLOCKS: usize = 64;

/// The most ways of a set.
pub const WAYS: usize = 8;

/// The most touches of a node.
pub const TOUCHES: usize = 2;

/// Must ages, or may ages, that are enough for every chart.
pub const AGES: usize = NODES * BLOCKS;

/// Classes that are enough for every chart.
pub const CLASSES: usize = TOUCHES * NODES;

/// The bytes of the longest chart.
pub const LONGEST: usize = 8 + 8 * NODES;

/// Passes that every chart settles within.
pub const PASSES: usize = NODES * (1 + 2 * BLOCKS * WAYS) + 1;
