use crate::limits::WAYS;
use crate::record::Reference;

/// The shape of a cache: lines of 2^`line` bytes, 2^`sets` sets, `ways` blocks in a set.
#[derive(Clone, Copy, Debug, PartialEq, Eq)]
pub struct Geometry {
    pub line: u32,
    pub sets: u32,
    pub ways: u8,
}

impl Geometry {
    /// The shape that these numbers say, if it is allowed (rule 1.2).
    pub fn of(line: u64, sets: u64, ways: u64) -> Option<Geometry> {
        let allowed = (2..=8).contains(&line) && sets <= 8 && (1..=WAYS as u64).contains(&ways);
        allowed.then_some(Geometry {
            line: line as u32,
            sets: sets as u32,
            ways: ways as u8,
        })
    }

    pub fn block_of(self, address: u32) -> u32 {
        address >> self.line
    }

    fn begins_a_line(self, address: u32) -> bool {
        address % (1 << self.line) == 0
    }

    /// The blocks that a reference comes to as it goes through its bytes: one with the first byte, and one wherever a line begins (rule 3.3).
    pub fn blocks_of(self, reference: Reference) -> impl Iterator<Item = u32> {
        let comes = move |&address: &u32| address == reference.first || self.begins_a_line(address);
        reference
            .addresses()
            .filter(comes)
            .map(move |address| self.block_of(address))
    }

    /// At most 256 sets, so that a set's number fits a byte.
    pub fn set_of(&self, block: u32) -> u8 {
        (block % (1 << self.sets)) as u8
    }
}
