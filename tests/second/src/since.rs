use crate::chart::{Chart, Node};

/// What is held of one block at a point: of all walks that come there together (rule 16.1).
#[derive(Clone, Copy, Debug, Default, PartialEq, Eq)]
pub struct Since {
    /// Whether one of them has touched the block.
    pub touched: bool,
    /// The other blocks of its set that one of them has touched since: a bit for each place of the chart's list.
    pub others: u64,
}

impl Since {
    /// Becomes what a touch of block `m` makes of what is held of `block` (rule 16.3).
    pub fn touch(&mut self, chart: &Chart, block: usize, m: usize) {
        if m == block {
            *self = Since {
                touched: true,
                others: 0,
            };
        } else if self.touched && chart.sets[m] == chart.sets[block] {
            self.others |= 1 << m;
        }
    }

    /// What a node's record makes of it: one touch after the other.
    pub fn after(mut self, chart: &Chart, block: usize, node: &Node) -> Since {
        for m in node.touched() {
            self.touch(chart, block, m);
        }
        self
    }

    /// Meets another: touched if either is, and the union of the two sets (rule 16.5). Whether anything changed.
    pub fn meet(&mut self, other: Since) -> bool {
        let before = *self;
        self.touched |= other.touched;
        self.others |= other.others;
        *self != before
    }

    /// How many blocks its set has.
    pub fn members(self) -> usize {
        self.others.count_ones() as usize
    }
}
