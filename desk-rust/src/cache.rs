//! The cache that an answer is for.

use crate::json::{object, Value};
use crate::known::Known;
use crate::paint::{Colour, Painted};
use crate::words::counted;
use veilbuzz::{Header, Start};

/// In plain numbers, not exponents.
pub struct Cache {
    /// The bytes of a line.
    pub line: usize,
    pub sets: usize,
    pub ways: usize,
    pub start: Start,
}

impl Cache {
    pub fn of(header: &Header) -> Cache {
        Cache {
            line: 1 << header.line,
            sets: 1 << header.sets,
            ways: header.ways,
            start: header.start,
        }
    }

    fn bytes(&self) -> usize {
        self.line * self.sets * self.ways
    }

    pub fn start(&self) -> &'static str {
        match self.start {
            Start::Unknown => "unknown",
            Start::Empty => "empty",
        }
    }

    pub fn words(&self) -> String {
        let (sets, ways) = (counted(self.sets, "set"), counted(self.ways, "way"));
        let (line, bytes, start) = (self.line, self.bytes(), self.start());
        format!("{sets} of {ways} of {line}-byte lines, {bytes} bytes; contents at the start {start}")
    }

    pub fn json(&self) -> Value {
        object([
            ("line", self.line.into()),
            ("sets", self.sets.into()),
            ("ways", self.ways.into()),
            ("bytes", self.bytes().into()),
            ("start", self.start().into()),
        ])
    }
}

/// Writes the first line of every answer about a chart: no class and no total means anything without the cache that it is for.
pub fn write_heading(known: &Known, out: &mut Painted) {
    let cache = Cache::of(&known.header).words();
    out.piece(format!("{}: {cache}", known.file), Some(Colour::Bold));
    out.line("");
}
