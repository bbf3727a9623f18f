//! Facts about the walk: what a text says of visits beside each node's own (rule 18.1).

use crate::known::{Known, Visits};
use crate::source::Span;
use std::collections::BTreeMap;

/// So many lines of facts a text can have.
pub const FACTS: usize = 1_000;

/// The largest coefficient or limit, also below 0 (rule 18.8).
pub const LARGEST: i64 = 1 << 24;

/// A walk keeps a fact if its visits, each times its node's coefficient, come to no more than the limit.
#[derive(Clone, Debug, PartialEq, Eq)]
pub struct Fact {
    /// Of the nodes that have one other than 0, by their numbers.
    pub coefficients: BTreeMap<usize, i64>,
    pub limit: i64,
}

impl Fact {
    /// The same with all signs turned, so that at most becomes at least.
    pub fn turned(&self) -> Fact {
        let turned = self.coefficients.iter().map(|(node, times)| (*node, -times));
        Fact {
            coefficients: turned.collect(),
            limit: -self.limit,
        }
    }

    /// Whether walks that keep it never come to some node (rule 18.7). Then it counts also where its multiplier is 0.
    pub fn rules_out(&self) -> bool {
        let all_above = self.coefficients.values().all(|times| *times > 0);
        self.limit <= 0 && all_above && !self.coefficients.is_empty()
    }

    fn of_node(node: usize, times: i64, limit: i64) -> Fact {
        Fact {
            coefficients: BTreeMap::from([(node, times)]),
            limit,
        }
    }
}

/// What one place of a text says: the fact of a `<=` or of a most, that of a `>=` or of a least, or both.
#[derive(Clone, Debug, PartialEq, Eq)]
pub struct Saying {
    pub span: Span,
    /// The node, where it says a node's visits.
    pub visits_of: Option<usize>,
    pub at_most: Option<Fact>,
    pub at_least: Option<Fact>,
}

impl Saying {
    pub fn facts(&self) -> impl Iterator<Item = &Fact> {
        self.at_most.iter().chain(&self.at_least)
    }
}

/// All that a text says of walks, as it stands there: lines of facts, and visits. A least of 0 says nothing.
pub fn sayings(known: &Known) -> Vec<Saying> {
    let mut sayings = known.facts.clone();
    let spans = known.text.iter().flat_map(|text| &text.visits);
    for ((number, node), span) in known.nodes.iter().enumerate().zip(spans) {
        if let (Some(Visits { floor, ceiling }), Some(span)) = (node.visits, span) {
            sayings.push(Saying {
                span: *span,
                visits_of: Some(number),
                at_most: Some(Fact::of_node(number, 1, ceiling.into())),
                at_least: (floor > 0).then(|| Fact::of_node(number, -1, -i64::from(floor))),
            });
        }
    }
    sayings.sort_by_key(|saying| saying.span);
    sayings
}
