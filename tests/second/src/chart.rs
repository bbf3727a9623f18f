//! A chart read whole, and refusals 9 and 10.

use crate::geometry::Geometry;
use crate::header::Header;
use crate::limits::{BLOCKS, TOUCHES};
use crate::record::{Arrows, Record, RecordFields, Reference};
use crate::refusal::Refusal;

/// A node: which blocks it touches, if it is a reference, and where it leads.
#[derive(Clone, Copy, Debug, PartialEq, Eq)]
pub struct Node {
    /// The place in the chart's list of the block of each touch, the first touch first; nothing behind the last.
    pub touches: [Option<usize>; TOUCHES],
    pub arrows: Arrows,
}

impl Node {
    /// The places of the blocks that it touches, in turn.
    pub fn touched(&self) -> impl Iterator<Item = usize> + '_ {
        self.touches.iter().copied().flatten()
    }
}

#[derive(Clone, Debug, PartialEq, Eq)]
pub struct Chart {
    pub header: Header,
    /// The distinct blocks that the references touch, ascending.
    pub blocks: Vec<u32>,
    /// The set of each block of the list.
    pub sets: Vec<u8>,
    pub nodes: Vec<Node>,
}

impl Chart {
    pub fn read(bytes: &[u8]) -> Result<Chart, Refusal> {
        let header = Header::read(bytes)?;
        let records = keeping(bytes, header.nodes)?;
        let blocks = blocks(&records, header.geometry)?;
        let sets = blocks.iter().map(|&block| header.geometry.set_of(block)).collect();
        let nodes = records
            .iter()
            .map(|record| Node {
                touches: record.reference.map_or([None; TOUCHES], |reference| {
                    touches(reference, header.geometry, &blocks)
                }),
                arrows: record.arrows,
            })
            .collect();
        Ok(Chart {
            header,
            blocks,
            sets,
            nodes,
        })
    }

    /// Ways in a set.
    pub fn ways(&self) -> u8 {
        self.header.geometry.ways
    }
}

/// The bytes of each whole record behind a header.
fn eights(bytes: &[u8]) -> impl Iterator<Item = [u8; 8]> + '_ {
    let eight = |record: &[u8]| record.try_into().expect("a record has eight bytes");
    bytes[8..].chunks_exact(8).map(eight)
}

/// What these records hold, allowed or not.
pub fn records(bytes: &[u8]) -> impl Iterator<Item = RecordFields> + '_ {
    eights(bytes).map(RecordFields::take)
}

/// The records, if all keep their rules.
fn keeping(bytes: &[u8], nodes: usize) -> Result<Vec<Record>, Refusal> {
    eights(bytes)
        .enumerate()
        .map(|(node, record)| Record::read(record, nodes).ok_or(Refusal::at(9, node)))
        .collect()
}

fn blocks(records: &[Record], geometry: Geometry) -> Result<Vec<u32>, Refusal> {
    let mut blocks = Vec::with_capacity(BLOCKS);
    for (node, record) in records.iter().enumerate() {
        let Some(reference) = record.reference else { continue };
        for block in geometry.blocks_of(reference) {
            if let Err(place) = blocks.binary_search(&block) {
                if blocks.len() == BLOCKS {
                    return Err(Refusal::at(10, node));
                }
                blocks.insert(place, block);
            }
        }
    }
    Ok(blocks)
}

/// Where the list has the blocks of a reference.
fn touches(reference: Reference, geometry: Geometry, blocks: &[u32]) -> [Option<usize>; TOUCHES] {
    let mut places = geometry.blocks_of(reference).map(|block| {
        blocks
            .binary_search(&block)
            .expect("the list has the blocks of every reference")
    });
    std::array::from_fn(|_| places.next())
}
