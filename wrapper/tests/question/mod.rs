//! What the totals are asked with, and the deadline, which is of the totals; a bound is asked with all but floors and ceilings.

// each file of tests has this as its own, and not each uses all of it
#![allow(dead_code)]

use crate::lent::{chart, Lent, AGES, NODES};
use veilbuzz::{Bounds, Costs};

/// The settled table, of which two references are kept, of a block each, then one hits, and the last is unreached; with costs and bounds.
#[derive(Clone, Debug, PartialEq)]
pub struct Question {
    pub chart: Vec<u8>,
    pub lent: Lent,
    pub costs: Costs,
    pub floors: Vec<u16>,
    pub ceilings: Vec<u16>,
}

/// The totals of a question that nothing has changed.
pub const LOW: u64 = 3 * (1 + 2 + 3);
pub const HIGH: u64 = 3 * (10 + 20 + 60_000) + 2 * (1000 - 3);

impl Question {
    pub fn fresh() -> Question {
        Question {
            chart: chart(),
            lent: Lent::settled(),
            costs: Costs { hit: 3, miss: 1000 },
            floors: vec![1, 2, 3, 0],
            ceilings: vec![10, 20, 60_000, 9],
        }
    }

    pub fn bounds(&self) -> Bounds<'_> {
        Bounds {
            floors: &self.floors,
            ceilings: &self.ceilings,
        }
    }
}

/// A change of a question, and the number and place of the refusal that comes of it.
pub type Fault = (fn(&mut Question), usize, usize);

/// A fault for each thing that totals, deadline and bound all look at: chart, table and costs.
pub const FAULTS: [Fault; 9] = [
    (|question| question.chart.truncate(7), 1, 0),
    // size code 3
    (|question| question.chart[8 + 8 + 7] |= 3, 9, 1),
    (|question| question.lent.must.truncate(AGES - 1), 11, 0),
    (|question| question.lent.may.truncate(AGES - 1), 11, 0),
    (|question| question.lent.marks.truncate(NODES - 1), 11, 0),
    (|question| question.lent.must[4] = 1, 13, 0),
    (|question| question.lent.may[3] = 1, 13, 0),
    (|question| question.lent.marks[1] = 0, 13, 0),
    (|question| question.costs = Costs { hit: 1000, miss: 3 }, 15, 0),
];
