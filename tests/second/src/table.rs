use crate::ages;
use crate::lent::Lent;
use crate::state::State;
use std::ops::Range;

/// A table (rule 7.1) over lent buffers of just its size: the marks, and both kinds of ages, a node's row after another's.
pub struct Table<'a> {
    pub blocks: usize,
    pub must: &'a mut [u8],
    pub may: &'a mut [u8],
    pub marks: &'a mut [u8],
}

impl Table<'_> {
    /// Where a node's row stands.
    pub fn row(&self, node: usize) -> Range<usize> {
        node * self.blocks..(node + 1) * self.blocks
    }

    pub fn marked(&self, node: usize) -> bool {
        self.marks[node] == 1
    }

    /// The table to be read.
    pub fn lent(&self) -> Lent<'_> {
        Lent {
            must: self.must,
            may: self.may,
            marks: self.marks,
        }
    }

    pub fn clear(&mut self) {
        self.must.fill(0);
        self.may.fill(0);
        self.marks.fill(0);
    }

    /// Meets a state into a node; one without a mark gets the mark and the state (rule 9.4). Whether anything changed.
    pub fn meet(&mut self, node: usize, state: &State) -> bool {
        let row = self.row(node);
        let (must, may) = (&mut self.must[row.clone()], &mut self.may[row]);
        if self.marks[node] == 0 {
            must.copy_from_slice(&state.must);
            may.copy_from_slice(&state.may);
            self.marks[node] = 1;
            return true;
        }
        ages::meet_must(must, &state.must) | ages::meet_may(may, &state.may)
    }
}
