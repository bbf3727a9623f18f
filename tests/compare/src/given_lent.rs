use crate::given::Given;
use crate::guarded::{long, Guarded};
use crate::same::Held;
use charts::random::Random;
use std::array::from_fn;
use veilbuzz::{Heading, NodeLists};

/// What a chart is written from, as it is lent: each list with guards.
#[derive(Clone)]
pub struct LentGiven {
    header: [u64; 6],
    lists: [Guarded<u64>; 6],
}

const NAMES: [&str; 6] = ["kinds", "addresses", "sizes", "outs", "firsts", "seconds"];

impl LentGiven {
    pub fn of(random: &mut Random, given: &Given) -> LentGiven {
        LentGiven {
            header: given.header,
            lists: from_fn(|list| Guarded::holding(random, &given.lists[list], 0, long)),
        }
    }

    pub fn heading(&self) -> Heading {
        let [line, sets, ways, start, nodes, entry] = self.header;
        Heading {
            line,
            sets,
            ways,
            start,
            nodes,
            entry,
        }
    }

    pub fn node_lists(&self) -> NodeLists<'_> {
        let [kinds, addresses, sizes, outs, firsts, seconds] = from_fn(|list| self.lists[list].lent());
        NodeLists {
            kinds,
            addresses,
            sizes,
            outs,
            firsts,
            seconds,
        }
    }

    /// Holds all six to what they were before, guards too.
    pub fn same(&self, before: &LentGiven) -> Held {
        for (list, name) in NAMES.into_iter().enumerate() {
            self.lists[list].same(&format!("{name}, which are only read,"), &before.lists[list])?;
        }
        Ok(())
    }
}
