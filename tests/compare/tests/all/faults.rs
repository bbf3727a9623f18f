//! Several faults at once: which of them is named.

use charts::{Chart, Record};
use compare::ask::READ;
use compare::group::Group;
use second::limits;

/// A chart in the making: its fields, and what is done to its bytes at the end.
#[derive(Clone)]
struct Draft {
    chart: Chart,
    cut: usize,
    more: usize,
}

impl Draft {
    fn bytes(&self) -> Vec<u8> {
        let mut bytes = self.chart.bytes();
        bytes.truncate(bytes.len().saturating_sub(self.cut));
        bytes.resize(bytes.len() + self.more, 0);
        bytes
    }
}

/// Puts a fault into a draft.
type Fault = fn(&mut Draft);

const FAULTS: [Fault; 25] = [
    |draft| draft.cut = draft.chart.bytes().len(),
    |draft| draft.cut = draft.chart.bytes().len() - 7,
    |draft| draft.chart.header.edition = 0,
    |draft| draft.chart.header.edition = 2,
    |draft| draft.chart.header.line = 1,
    |draft| draft.chart.header.sets = 9,
    |draft| draft.chart.header.ways = 0,
    |draft| draft.chart.header.ways = 9,
    |draft| draft.chart.header.start = 2,
    |draft| draft.chart.header.nodes = 0,
    |draft| draft.chart.header.nodes = limits::NODES as u64 + 1,
    |draft| draft.chart.header.entry = draft.chart.header.nodes,
    |draft| draft.chart.header.spare = 1,
    |draft| draft.chart.header.tail = 0x80,
    |draft| draft.cut += 1,
    |draft| draft.more += 8,
    |draft| draft.chart.records[0].size = 1,
    |draft| draft.chart.records[2].size = 15,
    |draft| draft.chart.records[3].kind = 3,
    |draft| draft.chart.records[4] = draft.chart.records[4].twins(5),
    |draft| draft.chart.records[5].outs = 3,
    |draft| draft.chart.records[6] = draft.chart.records[6].doing(Record::read(0xFFFF_FFFD).sized(2)),
    |draft| draft.chart.records[limits::BLOCKS + 6].first = draft.chart.header.nodes,
    |draft| reads(draft, limits::BLOCKS + 1),
    |draft| reads(draft, limits::BLOCKS + 6),
];

/// Has the first nodes read a block each.
fn reads(draft: &mut Draft, blocks: usize) {
    for block in 0..blocks {
        let record = &mut draft.chart.records[block];
        (record.kind, record.address) = (1, (block as u64) << 8);
    }
}

/// Some nodes more than a chart has blocks, each a bare step that leads to the next.
fn sound() -> Draft {
    let nodes = limits::BLOCKS as u64 + 8;
    let records = (0..nodes).map(|node| Record::step().to((node + 1) % nodes)).collect();
    Draft {
        chart: Chart::of(records),
        cut: 0,
        more: 0,
    }
}

#[test]
fn one_two_or_three_faults_at_once() {
    let mut group = Group::of("faults at once");
    for one in 0..FAULTS.len() {
        for two in 0..=one {
            for three in 0..=two {
                let mut draft = sound();
                for fault in [three, two, one] {
                    FAULTS[fault](&mut draft);
                }
                group.trial(&draft.bytes());
            }
        }
    }
    group.end().expect_each(READ, 1..=10, 3);
}
