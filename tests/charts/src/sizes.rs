//! Sizes of references, and the blocks that they touch, in a chart's bytes.

use crate::twins::record_of;
use crate::Record;
use second::header::Header;
use std::collections::BTreeSet;

/// Whether its size is all that is wrong with a record in a chart of so many nodes: with size code 0 it would keep its rules.
pub fn size_alone(record: [u8; 8], nodes: usize) -> bool {
    let keeps = |record| second::record::Record::read(record, nodes).is_some();
    !keeps(record) && keeps(Record::of_bytes(record).sized(0).bytes())
}

/// The blocks that a node touches, in turn, in a chart whose header and records keep their rules.
pub fn touched_by(chart: &[u8], node: usize) -> Vec<u32> {
    let header = Header::read(chart).expect("the header keeps its rules");
    let record =
        second::record::Record::read(record_of(chart, node), header.nodes).expect("the record keeps its rules");
    let blocks = |reference| header.geometry.blocks_of(reference);
    record.reference.into_iter().flat_map(blocks).collect()
}

/// The blocks that the nodes before this one touch.
pub fn touched_before(chart: &[u8], node: usize) -> BTreeSet<u32> {
    (0..node).flat_map(|node| touched_by(chart, node)).collect()
}
