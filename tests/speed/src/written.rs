//! The writer beside the reader: the same chart written from its fields and read from its bytes, each with a buffer or a list of its own.

use crate::kinds::Kind;
use crate::timing::{best, middle, turns};
use second::limits::LONGEST;
use std::hint::black_box;
use std::time::{Duration, Instant};
use veilbuzz::{fields_of, read, write, Fields, Heading, NodeLists};

pub struct Written {
    /// The writer's and the reader's best time, in microseconds.
    pub best: [f64; 2],
    /// The middle ratio of a turn.
    pub ratio: f64,
}

/// The list of one field.
fn list(fields: &[Fields], of: impl Fn(&Fields) -> u64) -> Vec<u64> {
    fields.iter().map(of).collect()
}

/// Measures both on a chart, and first sees that it is written as it was read.
pub fn written(kind: Kind, nodes: usize, blocks: usize) -> Written {
    let chart = kind.charts(nodes, blocks).swap_remove(0);
    let (header, fields) = fields_of(&chart).expect("the chart is accepted");
    let heading = Heading::from(header);
    let kinds = list(&fields, |node| node.kind);
    let addresses = list(&fields, |node| node.address);
    let sizes = list(&fields, |node| node.size);
    let outs = list(&fields, |node| node.outs);
    let firsts = list(&fields, |node| node.first);
    let seconds = list(&fields, |node| node.second);
    let lists = NodeLists {
        kinds: &kinds,
        addresses: &addresses,
        sizes: &sizes,
        outs: &outs,
        firsts: &firsts,
        seconds: &seconds,
    };
    let mut buffer = vec![0; LONGEST];
    let length = write(heading, &lists, &mut buffer).expect("there is room");
    assert_eq!(buffer[..length], chart);
    let mut writer = || {
        let start = Instant::now();
        black_box(write(black_box(heading), black_box(&lists), &mut buffer)).expect("there is room");
        start.elapsed()
    };
    let mut reader = || {
        let start = Instant::now();
        black_box(read(black_box(&chart))).expect("the chart is accepted");
        start.elapsed()
    };
    let jobs: [&mut dyn FnMut() -> Duration; 2] = [&mut writer, &mut reader];
    let readings = turns(jobs);
    Written {
        best: best(&readings),
        ratio: middle(&readings, 1),
    }
}
