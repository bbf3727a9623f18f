//! How much of the time of what it is measured against the proved analysis is to take at most.

use crate::kinds::Kind;
use crate::measures::{Case, FEWEST};
use second::limits::BLOCKS;

/// What the proved analysis is measured against.
#[derive(Clone, Copy, Debug, PartialEq, Eq)]
pub enum Against {
    /// The second program: plain passes over all nodes.
    Second,
    /// The same where nodes that have not changed are passed over.
    Unchanged,
}

impl Against {
    /// In the order of the ratios of a case.
    pub const BOTH: [Against; 2] = [Against::Second, Against::Unchanged];

    pub fn name(self) -> &'static str {
        match self {
            Against::Second => "second",
            Against::Unchanged => "unchanged",
        }
    }
}

/// The ratios of a case, to each in the order of `Against::BOTH`.
pub type Ratios = [f64; 2];

/// A ratio that no chart of some is to go over.
pub struct Target {
    pub against: Against,
    /// Which charts, in words.
    pub charts: &'static str,
    of: fn(Case) -> bool,
    pub most: f64,
}

const fn target(against: Against, most: f64, charts: &'static str, of: fn(Case) -> bool) -> Target {
    Target {
        against,
        charts,
        of,
        most,
    }
}

/// Whether a case is of that kind, has so many blocks, and more than the fewest nodes.
fn larger(case: Case, kind: Kind, blocks: usize) -> bool {
    case.kind == kind && case.blocks == blocks && case.nodes > FEWEST
}

/// Each case of the picture has one against each.
pub const TARGETS: [Target; 9] = [
    target(Against::Second, 0.5, "short, the most blocks", |case| {
        larger(case, Kind::Short, BLOCKS)
    }),
    target(Against::Second, 0.6, "looping, the most blocks", |case| {
        larger(case, Kind::Looping, BLOCKS)
    }),
    target(Against::Second, 0.03, "backward, the most blocks", |case| {
        larger(case, Kind::Backward, BLOCKS)
    }),
    target(Against::Second, 0.7, "short, 8 blocks", |case| {
        larger(case, Kind::Short, 8)
    }),
    target(Against::Second, 0.35, "looping, 8 blocks", |case| {
        larger(case, Kind::Looping, 8)
    }),
    target(Against::Second, 0.03, "backward, 8 blocks", |case| {
        larger(case, Kind::Backward, 8)
    }),
    target(Against::Second, 1.0, "the fewest nodes", |case| case.nodes == FEWEST),
    target(Against::Unchanged, 1.0, "all with more nodes", |case| {
        case.nodes > FEWEST
    }),
    target(Against::Unchanged, 1.2, "the fewest nodes", |case| case.nodes == FEWEST),
];

impl Target {
    /// The target of a case.
    pub fn of(case: Case, against: Against) -> &'static Target {
        let mut its = TARGETS.iter().filter(|target| target.against == against);
        its.find(|target| (target.of)(case)).expect("each case has a target")
    }

    /// The case that comes nearest to it, or furthest over it.
    pub fn worst(&self, measured: &[(Case, Ratios)]) -> (Case, f64) {
        let its = measured.iter().filter(|(case, _)| (self.of)(*case));
        its.map(|&(case, ratios)| (case, ratios[self.against as usize]))
            .max_by(|(_, one), (_, other)| one.total_cmp(other))
            .expect("each target has a case")
    }
}
