use crate::guarded::{byte, word, Guarded};
use crate::same::Held;
use charts::random::Random;
use second::analysis;
use second::limits::TOUCHES;

/// The lengths of the five buffers: blocks, must, may, marks, classes.
pub type Lengths = [usize; 5];

pub const NAMES: [&str; 5] = ["blocks", "must", "may", "marks", "classes"];

/// What the analysis uses of each.
pub fn used(nodes: usize, blocks: usize) -> Lengths {
    [blocks, nodes * blocks, nodes * blocks, nodes, TOUCHES * nodes]
}

/// The five buffers that an analysis is lent.
#[derive(Clone)]
pub struct Lent {
    pub blocks: Guarded<u32>,
    pub must: Guarded<u8>,
    pub may: Guarded<u8>,
    pub marks: Guarded<u8>,
    pub classes: Guarded<u8>,
}

impl Lent {
    pub fn of(random: &mut Random, lengths: Lengths) -> Lent {
        let [blocks, must, may, marks, classes] = lengths;
        Lent {
            blocks: Guarded::of(random, blocks, word),
            must: Guarded::of(random, must, byte),
            may: Guarded::of(random, may, byte),
            marks: Guarded::of(random, marks, byte),
            classes: Guarded::of(random, classes, byte),
        }
    }

    pub fn to_archive(&mut self) -> veilbuzz::Buffers<'_> {
        veilbuzz::Buffers {
            blocks: self.blocks.lent_mut(),
            must: self.must.lent_mut(),
            may: self.may.lent_mut(),
            marks: self.marks.lent_mut(),
            classes: self.classes.lent_mut(),
        }
    }

    pub fn to_second(&mut self) -> analysis::Buffers<'_> {
        analysis::Buffers {
            blocks: self.blocks.lent_mut(),
            must: self.must.lent_mut(),
            may: self.may.lent_mut(),
            marks: self.marks.lent_mut(),
            classes: self.classes.lent_mut(),
        }
    }

    /// Holds all five to another's, tails and guards too.
    pub fn same(&self, second: &Lent) -> Held {
        self.blocks.same(NAMES[0], &second.blocks)?;
        self.must.same(NAMES[1], &second.must)?;
        self.may.same(NAMES[2], &second.may)?;
        self.marks.same(NAMES[3], &second.marks)?;
        self.classes.same(NAMES[4], &second.classes)
    }
}
