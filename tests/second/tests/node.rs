//! One node of a chart, and that there is none past the last.

use charts::{Chart, Record};
use second::limits::{BLOCKS, NODES};
use second::node::node;
use second::refusal::Refusal;

/// What a node's record holds: kind, address, size code, number of arrows, first, second.
fn numbers(chart: &Chart, number: usize) -> Result<Option<[u64; 6]>, Refusal> {
    Ok(node(&chart.bytes(), number)?.map(|node| node.numbers()))
}

#[test]
fn the_samples_nodes_are_told() {
    let sample = Chart::sample();
    assert_eq!(numbers(&sample, 0), Ok(Some([0, 0, 0, 1, 1, 0])));
    assert_eq!(numbers(&sample, 1), Ok(Some([1, 0, 0, 2, 1, 2])));
    assert_eq!(numbers(&sample, 2), Ok(Some([1, 0, 0, 0, 0, 0])));
}

#[test]
fn each_number_of_a_record_is_told_in_its_place() {
    let mut chart = Chart::steps(NODES);
    let last = NODES as u64 - 1;
    chart.records[5] = Record::write(0xFFFF_FFFC).sized(2).to(last).to(7);
    assert_eq!(numbers(&chart, 5), Ok(Some([2, 0xFFFF_FFFC, 2, 2, last, 7])));
}

#[test]
fn past_the_last_node_there_is_none() {
    for nodes in [1, 2, NODES] {
        let mut chart = Chart::steps(nodes);
        chart.records[nodes - 1] = Record::read(0x40);
        assert_eq!(numbers(&chart, nodes - 1), Ok(Some([1, 0x40, 0, 0, 0, 0])));
        // where fewer bits, or eight times as much, would come back to a node
        for number in [nodes, nodes + 1, 1 << 12, 1 << 32, 1 << 61, usize::MAX / 8, usize::MAX] {
            assert_eq!(numbers(&chart, number), Ok(None), "node {number} of {nodes}");
        }
    }
}

#[test]
fn the_whole_chart_is_read_first() {
    let mut broken = Chart::steps(4);
    broken.records[3].outs = 3;
    let addresses: Vec<u64> = (0..=BLOCKS as u64).map(|block| block * 16).collect();
    let mut later = Chart::sample();
    later.header.edition = 2;
    for number in [0, 3, 4, usize::MAX] {
        assert_eq!(node(&[], number), Err(Refusal::of(1)));
        assert_eq!(numbers(&later, number), Err(Refusal::of(2)));
        assert_eq!(numbers(&broken, number), Err(Refusal::at(9, 3)));
        assert_eq!(numbers(&Chart::reads(&addresses), number), Err(Refusal::at(10, BLOCKS)));
    }
}
