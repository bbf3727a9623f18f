//! A chart's first 64 bits, and refusals 1 to 8.

use crate::bits::Bits;
use crate::fields::Fields;
use crate::geometry::Geometry;
use crate::limits::{length, NODES};
use crate::refusal::Refusal;

/// What the cache holds before a walk.
#[derive(Clone, Copy, Debug, PartialEq, Eq)]
pub enum Start {
    Unknown,
    Empty,
}

/// A header that keeps its rules.
#[derive(Clone, Copy, Debug, PartialEq, Eq)]
pub struct Header {
    pub geometry: Geometry,
    pub start: Start,
    pub nodes: usize,
    pub entry: usize,
}

/// The numbers of a header, allowed or not, and also such as its fields cannot hold.
#[derive(Clone, Copy, Debug, PartialEq, Eq)]
pub struct HeaderFields {
    pub line: u64,
    pub sets: u64,
    pub ways: u64,
    pub start: u64,
    pub nodes: u64,
    pub entry: u64,
}

impl HeaderFields {
    /// Those that are told, or given, in the order of rules 12.9 and 15.3.
    pub fn of([line, sets, ways, start, nodes, entry]: [u64; 6]) -> HeaderFields {
        HeaderFields {
            line,
            sets,
            ways,
            start,
            nodes,
            entry,
        }
    }

    /// In the order of these rules.
    pub fn numbers(&self) -> [u64; 6] {
        [self.line, self.sets, self.ways, self.start, self.nodes, self.entry]
    }

    /// Puts them in the order of rule 1.2, with what edition and spare bits have to be. Each has to fit its field.
    pub fn put(&self, bits: &mut Bits) {
        bits.put(8, 1);
        bits.put(4, self.line);
        bits.put(4, self.sets);
        bits.put(4, self.ways);
        bits.put(2, self.start);
        bits.put(10, 0);
        bits.put(12, self.nodes);
        bits.put(12, self.entry);
        bits.put(8, 0);
    }
}

impl Header {
    /// The header that these numbers say, or one of refusals 3 to 6.
    pub fn of(fields: HeaderFields) -> Result<Header, Refusal> {
        let geometry = Geometry::of(fields.line, fields.sets, fields.ways).ok_or(Refusal::of(3))?;
        let start = match fields.start {
            0 => Start::Unknown,
            1 => Start::Empty,
            _ => return Err(Refusal::of(4)),
        };
        if !(1..=NODES as u64).contains(&fields.nodes) {
            return Err(Refusal::of(5));
        }
        if fields.entry >= fields.nodes {
            return Err(Refusal::of(6));
        }
        Ok(Header {
            geometry,
            start,
            nodes: fields.nodes as usize,
            entry: fields.entry as usize,
        })
    }

    /// The numbers that say it.
    pub fn fields(&self) -> HeaderFields {
        HeaderFields {
            line: self.geometry.line.into(),
            sets: self.geometry.sets.into(),
            ways: self.geometry.ways.into(),
            start: match self.start {
                Start::Unknown => 0,
                Start::Empty => 1,
            },
            nodes: self.nodes as u64,
            entry: self.entry as u64,
        }
    }

    /// The header of a chart. The chart's length is held to it too.
    pub fn read(chart: &[u8]) -> Result<Header, Refusal> {
        let Some(&first) = chart.first_chunk() else {
            return Err(Refusal::of(1));
        };
        let mut fields = Fields::of(first);
        let mut take = |width| u64::from(fields.take(width));
        let edition = take(8);
        let [line, sets, ways, start] = [take(4), take(4), take(4), take(2)];
        let spare = take(10);
        let [nodes, entry] = [take(12), take(12)];
        let tail = take(8);

        if edition != 1 {
            return Err(Refusal::of(2));
        }
        let header = Header::of(HeaderFields::of([line, sets, ways, start, nodes, entry]))?;
        if spare != 0 || tail != 0 {
            return Err(Refusal::of(7));
        }
        if chart.len() != length(header.nodes) {
            return Err(Refusal::of(8));
        }
        Ok(header)
    }
}
