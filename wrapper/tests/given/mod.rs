//! What the writer is given for a chart, and a chart with a different number in each field of its header.

// each file of tests has this as its own, and none uses all of it
#![allow(dead_code)]

use charts::{Chart, Header, Record};
use veilbuzz::{write, Fields, Heading, NodeLists, Refusal};

pub const NODES: usize = 5;
pub const LENGTH: usize = 8 + 8 * NODES;

/// References of every kind and size, and nodes with every number of arrows.
pub fn chart() -> Chart {
    let records = vec![
        Record::read(0x40).sized(1).to(3).to(1),
        Record::step().to(2),
        Record::write(0x7E).sized(2),
        Record::read(0xFFFF_FFFC).sized(2).to(0).to(4),
        Record::read(0x00).to(4),
    ];
    let mut chart = Chart::of(records).shaped(2, 3, 1);
    (chart.header.line, chart.header.entry) = (6, 4);
    chart
}

/// What the writer is given, and the buffer that it is lent: longer than used, and what is not written is 77.
#[derive(Clone, Debug, PartialEq)]
pub struct Given {
    pub heading: Heading,
    pub kinds: Vec<u64>,
    pub addresses: Vec<u64>,
    pub sizes: Vec<u64>,
    pub outs: Vec<u64>,
    pub firsts: Vec<u64>,
    pub seconds: Vec<u64>,
    pub lent: Vec<u8>,
}

pub fn fields(record: Record) -> Fields {
    Fields {
        kind: record.kind,
        address: record.address,
        size: record.size,
        outs: record.outs,
        first: record.first,
        second: record.second,
    }
}

pub fn heading(header: Header) -> Heading {
    Heading {
        line: header.line,
        sets: header.sets,
        ways: header.ways,
        start: header.start,
        nodes: header.nodes,
        entry: header.entry,
    }
}

impl Given {
    /// The fields of a chart, and room for it.
    pub fn of(chart: &Chart) -> Given {
        let list = |field: fn(&Record) -> u64| chart.records.iter().map(field).collect();
        Given {
            heading: heading(chart.header),
            kinds: list(|record| record.kind),
            addresses: list(|record| record.address),
            sizes: list(|record| record.size),
            outs: list(|record| record.outs),
            firsts: list(|record| record.first),
            seconds: list(|record| record.second),
            lent: vec![77; chart.bytes().len() + 9],
        }
    }

    /// The six lists, in the order of the parameters.
    pub fn lists(&mut self) -> [&mut Vec<u64>; 6] {
        [
            &mut self.kinds,
            &mut self.addresses,
            &mut self.sizes,
            &mut self.outs,
            &mut self.firsts,
            &mut self.seconds,
        ]
    }

    /// Writes, and sees that a refusal leaves the buffer as it was.
    pub fn write(&mut self) -> Result<usize, Refusal> {
        let before = self.lent.clone();
        let lists = NodeLists {
            kinds: &self.kinds,
            addresses: &self.addresses,
            sizes: &self.sizes,
            outs: &self.outs,
            firsts: &self.firsts,
            seconds: &self.seconds,
        };
        let answer = write(self.heading, &lists, &mut self.lent);
        assert!(answer.is_ok() || self.lent == before, "after {answer:?}");
        answer
    }
}
