//! Damage to a chart.

use crate::random::Random;
use crate::{Chart, Header, Record};

const NODES: u64 = second::limits::NODES as u64;

/// The bytes of a chart after up to three damages.
pub fn damaged(random: &mut Random, mut chart: Chart) -> Vec<u8> {
    let damages = random.below(4);
    for _ in 0..damages {
        match random.below(3) {
            0 => damage_header(random, &mut chart.header),
            1 => damage_record(random, &mut chart),
            _ => {}
        }
    }
    let mut bytes = chart.bytes();
    for _ in 0..damages {
        if random.once_in(4) {
            damage_bytes(random, &mut bytes);
        }
    }
    bytes
}

/// Gives one header field any value that it can hold, near an end of what is allowed as often as not.
fn damage_header(random: &mut Random, header: &mut Header) {
    match random.below(9) {
        0 => header.edition = random.below(256),
        1 => header.line = random.below(16),
        2 => header.sets = random.below(16),
        3 => header.ways = random.below(16),
        4 => header.start = random.below(4),
        5 => header.spare = random.below(1 << 10),
        6 if random.once_in(2) => {
            header.nodes = [0, 1, NODES - 1, NODES, NODES + 1, NODES + 2][random.below(6) as usize]
        }
        6 => header.nodes = random.below(1 << 12),
        7 if random.once_in(2) => header.entry = random.within(header.nodes.saturating_sub(1), header.nodes).min(4095),
        7 => header.entry = random.below(1 << 12),
        _ => header.tail = random.below(256),
    }
}

/// Gives one field of one record any value that it can hold, or breaks the rules of sizes or of two arrows.
fn damage_record(random: &mut Random, chart: &mut Chart) {
    let nodes = chart.records.len() as u64;
    let record = &mut chart.records[random.below(nodes) as usize];
    match random.below(11) {
        0 => record.kind = random.below(4),
        1 => record.address = random.below(1 << 32),
        2 => record.outs = random.below(4),
        3 => record.first = random.within(nodes - 1, nodes + 1),
        4 => record.second = random.within(nodes - 1, nodes + 1),
        // the first code that there is not, or any
        5 if random.once_in(2) => record.size = 3,
        5 => record.size = random.below(16),
        // a step has no size
        6 => *record = record.doing(Record::step().sized(random.within(1, 15))),
        // up to the last byte that there is, and perhaps past it
        7 => {
            let size = random.within(1, 2);
            *record = record.doing(Record::read((1 << 32) - random.within(1, 1 << size)).sized(size));
        }
        // a label typed twice: where the first arrow leads, or to any node
        8 => *record = record.twins(record.first),
        _ => *record = record.twins(random.below(nodes)),
    }
}

/// Flips a bit, or takes bytes away from the end, or adds some.
fn damage_bytes(random: &mut Random, bytes: &mut Vec<u8>) {
    let size = bytes.len() as u64;
    match random.below(6) {
        0 => bytes.truncate(random.below(9) as usize),
        1 => bytes.truncate(random.below(size + 1) as usize),
        2 => bytes.truncate(size.saturating_sub(1) as usize),
        3 => bytes.resize((size + random.within(1, 16)) as usize, 0),
        _ if size == 0 => bytes.push(1),
        _ => bytes[random.below(size) as usize] ^= 1 << random.below(8),
    }
}
