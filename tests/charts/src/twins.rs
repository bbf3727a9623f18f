//! Two arrows to one node, in a chart's bytes.

use crate::Record;

/// Whether two arrows to one node are all that is wrong with a record in a chart of so many nodes: with one of them it would keep its rules.
pub fn twins_alone(record: [u8; 8], nodes: usize) -> bool {
    let record = Record::of_bytes(record);
    let mended = Record {
        outs: 1,
        second: 0,
        ..record
    };
    record.has_twins() && second::record::Record::read(mended.bytes(), nodes).is_some()
}

/// The record of a node in a chart's bytes.
pub fn record_of(chart: &[u8], node: usize) -> [u8; 8] {
    let from = 8 + 8 * node;
    chart[from..from + 8].try_into().expect("a record has eight bytes")
}
