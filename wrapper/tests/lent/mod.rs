//! A chart whose five buffers all end up different, and buffers for it.

// each file of tests has this as its own, and none uses all of it
#![allow(dead_code)]

use charts::{Chart, Record};
use veilbuzz::{Buffers, Table, TOUCHES};

pub const NODES: usize = 4;
pub const BLOCKS: usize = 3;
pub const AGES: usize = NODES * BLOCKS;
pub const CLASSES: usize = TOUCHES * NODES;

/// Reads of 0x00, 0x10 and 0x00 in a row in one set of two ways, unknown (section 8 of the rules), and a read of 0x20 that no walk reaches.
pub fn chart() -> Vec<u8> {
    let mut chart = Chart::straight(&[0x00, 0x10, 0x00]).shaped(0, 2, 0);
    chart.records.push(Record::read(0x20));
    chart.header.nodes = NODES as u64;
    chart.bytes()
}

/// Buffers to lend. Each is one longer than used, and what is not written is 77.
#[derive(Clone, Debug, PartialEq)]
pub struct Lent {
    pub blocks: Vec<u32>,
    pub must: Vec<u8>,
    pub may: Vec<u8>,
    pub marks: Vec<u8>,
    pub classes: Vec<u8>,
}

impl Lent {
    pub fn fresh() -> Lent {
        Lent {
            blocks: vec![77; BLOCKS + 1],
            must: vec![77; AGES + 1],
            may: vec![77; AGES + 1],
            marks: vec![77; NODES + 1],
            classes: vec![77; CLASSES + 1],
        }
    }

    /// What the analysis leaves, worked out by hand, with its tails.
    pub fn settled() -> Lent {
        Lent {
            blocks: vec![0, 1, 2, 77],
            must: vec![2, 2, 2, 0, 2, 2, 1, 0, 2, 0, 0, 0, 77],
            may: vec![0, 0, 0, 0, 1, 1, 1, 0, 2, 0, 0, 0, 77],
            marks: vec![1, 1, 1, 0, 77],
            classes: vec![5, 4, 5, 4, 1, 4, 0, 0, 77],
        }
    }

    pub fn buffers(&mut self) -> Buffers<'_> {
        Buffers {
            blocks: &mut self.blocks,
            must: &mut self.must,
            may: &mut self.may,
            marks: &mut self.marks,
            classes: &mut self.classes,
        }
    }

    pub fn table(&self) -> Table<'_> {
        Table {
            must: &self.must,
            may: &self.may,
            marks: &self.marks,
        }
    }
}
