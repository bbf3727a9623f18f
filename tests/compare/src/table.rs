use crate::guarded::{byte, Guarded};
use crate::lent::Lent;
use crate::same::Held;
use charts::random::Random;

/// A table as it is thought up: just as long as used, or cut short.
#[derive(Clone, Debug, PartialEq)]
pub struct Table {
    pub must: Vec<u8>,
    pub may: Vec<u8>,
    pub marks: Vec<u8>,
}

impl Table {
    /// Every node with the same mark and ages.
    pub fn uniform(nodes: usize, blocks: usize, mark: u8, must: u8, may: u8) -> Table {
        Table {
            must: vec![must; nodes * blocks],
            may: vec![may; nodes * blocks],
            marks: vec![mark; nodes],
        }
    }

    /// A copy of one that can be lent.
    pub fn copied(table: veilbuzz::Table) -> Table {
        Table {
            must: table.must.to_vec(),
            may: table.may.to_vec(),
            marks: table.marks.to_vec(),
        }
    }

    /// What an analysis has written.
    pub fn written(lent: &Lent, nodes: usize, blocks: usize) -> Table {
        Table {
            must: lent.must.lent()[..nodes * blocks].to_vec(),
            may: lent.may.lent()[..nodes * blocks].to_vec(),
            marks: lent.marks.lent()[..nodes].to_vec(),
        }
    }
}

/// A table as it is lent: with guards, and perhaps with tails.
#[derive(Clone)]
pub struct LentTable {
    must: Guarded<u8>,
    may: Guarded<u8>,
    marks: Guarded<u8>,
}

impl LentTable {
    pub fn of(random: &mut Random, table: &Table) -> LentTable {
        let mut lend = |part: &[u8]| {
            let tail = if random.once_in(2) { 0 } else { random.below(80) };
            Guarded::holding(random, part, tail as usize, byte)
        };
        LentTable {
            must: lend(&table.must),
            may: lend(&table.may),
            marks: lend(&table.marks),
        }
    }

    /// Just so long, and nothing behind it.
    pub fn exactly(random: &mut Random, table: &Table) -> LentTable {
        let mut lend = |part: &[u8]| Guarded::holding(random, part, 0, byte);
        LentTable {
            must: lend(&table.must),
            may: lend(&table.may),
            marks: lend(&table.marks),
        }
    }

    pub fn to_archive(&self) -> veilbuzz::Table<'_> {
        veilbuzz::Table {
            must: self.must.lent(),
            may: self.may.lent(),
            marks: self.marks.lent(),
        }
    }

    pub fn to_second(&self) -> second::lent::Lent<'_> {
        second::lent::Lent {
            must: self.must.lent(),
            may: self.may.lent(),
            marks: self.marks.lent(),
        }
    }

    /// Holds all three to what they were before, tails and guards too.
    pub fn same(&self, before: &LentTable) -> Held {
        self.must.same("must, which is only read,", &before.must)?;
        self.may.same("may, which is only read,", &before.may)?;
        self.marks.same("marks, which are only read,", &before.marks)
    }
}
