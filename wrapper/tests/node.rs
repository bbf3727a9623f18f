//! `node`: each field comes from its own bits, a number that no node has is no refusal, and the whole chart is read first.

mod given;

use charts::{Chart, Record};
use given::fields;
use veilbuzz::{node, Fields, Refusal, BLOCKS, NODES};

/// Nodes of every kind and size, and with every number of arrows. The first has a different number in each field.
fn chart() -> Chart {
    Chart::of(vec![
        Record::read(0x8000_0001).to(4).to(3),
        Record::write(0xFFFF_FFFC).sized(2).to(0).to(4),
        Record::step(),
        Record::write(0xFFFF_FFFE).sized(1).to(3),
        Record::step().to(0),
    ])
}

fn refusal(number: usize, place: usize) -> Result<Option<Fields>, Refusal> {
    Err(Refusal { number, place })
}

/// Numbers that no node has. Some of them, times the eight bytes of a record, wrap around to a place that there is.
const NONE: [usize; 8] = [5, 6, NODES, 1 << 32, 1 << 61, (1 << 61) + 2, usize::MAX - 1, usize::MAX];

#[test]
fn each_field_is_told_by_its_name() {
    let told = Fields {
        kind: 1,
        address: 0x8000_0001,
        size: 0,
        outs: 2,
        first: 4,
        second: 3,
    };
    assert_eq!(node(&chart().bytes(), 0), Ok(Some(told)));
}

#[test]
fn each_node_is_told() {
    let bytes = chart().bytes();
    for (n, record) in chart().records.into_iter().enumerate() {
        assert_eq!(node(&bytes, n), Ok(Some(fields(record))), "node {n}");
    }
}

#[test]
fn where_there_is_no_such_node_there_are_no_fields() {
    let bytes = chart().bytes();
    for n in NONE {
        assert_eq!(node(&bytes, n), Ok(None), "node {n}");
    }
    let step = Chart::steps(1).bytes();
    assert_eq!(node(&step, 0), Ok(Some(fields(Record::step()))));
    assert_eq!(node(&step, 1), Ok(None));
}

#[test]
fn the_largest_chart_has_its_last_node() {
    let mut chart = Chart::steps(NODES);
    let last = Record::step().to(NODES as u64 - 1);
    chart.records[NODES - 1] = last;
    let bytes = chart.bytes();
    assert_eq!(node(&bytes, NODES - 1), Ok(Some(fields(last))));
    assert_eq!(node(&bytes, NODES), Ok(None));
}

#[test]
fn a_chart_is_refused_whichever_node_is_asked_for() {
    let changed = |change: fn(&mut Chart)| {
        let mut chart = chart();
        change(&mut chart);
        chart.bytes()
    };
    let whole = chart().bytes();
    let many: Vec<u64> = (0..BLOCKS as u64 + 6).map(|block| block * 16).collect();
    let refused = [
        (vec![], refusal(1, 0)),
        (whole[..7].to_vec(), refusal(1, 0)),
        (changed(|chart| chart.header.edition = 2), refusal(2, 0)),
        (changed(|chart| chart.header.ways = 9), refusal(3, 0)),
        (changed(|chart| chart.header.start = 2), refusal(4, 0)),
        (changed(|chart| chart.header.nodes = 0), refusal(5, 0)),
        (changed(|chart| chart.header.entry = 5), refusal(6, 0)),
        (changed(|chart| chart.header.tail = 1), refusal(7, 0)),
        (whole[..whole.len() - 1].to_vec(), refusal(8, 0)),
        (changed(|chart| chart.records[4].size = 1), refusal(9, 4)),
        (changed(|chart| chart.records[3].kind = 3), refusal(9, 3)),
        (Chart::reads(&many).bytes(), refusal(10, BLOCKS)),
    ];
    for (bytes, expected) in refused {
        for n in [0, 2, 3, 4].into_iter().chain(NONE) {
            assert_eq!(node(&bytes, n), expected, "node {n}");
        }
    }
}
