//! The passes of one block, by hand from rules 9.1 to 9.5 and 16.7, and that there are never more than 65 for each node, and one.

use crate::drawn::charts;
use crate::small::{one_set, read, A, B};
use charts::slowest::slowest;
use charts::{Chart, Record};
use second::chart;
use second::limits::{passes_of_a_block, BLOCKS, NODES};
use second::one_block::OneBlock;

/// The passes of each block of a chart.
fn passes_of(chart: &chart::Chart) -> Vec<usize> {
    let passes = |block| OneBlock::settled(chart, block).passes;
    (0..chart.blocks.len()).map(passes).collect()
}

fn passes(chart: &Chart) -> Vec<usize> {
    passes_of(&read(chart))
}

#[test]
fn one_node_without_arrows_takes_one_pass() {
    assert_eq!(passes(&Chart::reads(&[A])), [1]);
    // and so does each block that no walk comes to
    assert_eq!(passes(&Chart::reads(&[A, B])), [1, 1]);
}

#[test]
fn the_sample_takes_two() {
    assert_eq!(passes(&Chart::sample()), [2]);
}

#[test]
fn each_block_has_its_own_count() {
    // of a: node 1 gets it touched, node 0 gets it touched with b in its set; then nothing changes
    // of b: node 1 gets nothing touched, node 0 gets it touched; node 1 gets it touched with a in its set; then nothing changes
    let chart = one_set(&[Record::read(A).to(1), Record::read(B).to(0)], 2, 1);
    assert_eq!(passes(&chart), [2, 3]);
}

#[test]
fn a_chain_that_runs_against_the_numbers_takes_a_pass_for_each_arrow() {
    let mut chart = Chart::reads(&[A; 5]);
    for node in 1..5 {
        chart.records[node] = chart.records[node].to(node as u64 - 1);
    }
    chart.header.entry = 4;
    assert_eq!(passes(&chart), [5]);
}

/// A ring against the numbers: a trip marks the nodes; block b is touched at its end, and a second trip tells that, and with it that a was
/// touched since, which the entry reads in the pass that brings b to it.
#[test]
fn a_ring_that_runs_against_the_numbers_takes_two_trips() {
    for nodes in [3, 10, 100] {
        let mut records = vec![Record::step(); nodes];
        (records[nodes - 1], records[0]) = (Record::read(A), Record::read(B));
        for (node, record) in records.iter_mut().enumerate() {
            *record = record.to((node + nodes - 1) as u64 % nodes as u64);
        }
        let mut chart = one_set(&records, 2, 1);
        chart.header.entry = nodes as u64 - 1;
        assert_eq!(passes(&chart), [nodes + 1, 2 * nodes - 1], "{nodes} nodes");
    }
}

#[test]
fn no_block_takes_more_than_65_for_each_node_and_one() {
    assert_eq!(passes_of_a_block(NODES), 65 * NODES + 1);
    let mut most = 0;
    for chart in charts(37, 1_000, 80) {
        let bound = 65 * chart.nodes.len() + 1;
        let passes = passes_of(&chart);
        assert!(passes.iter().all(|&passes| (1..=bound).contains(&passes)));
        most = passes.into_iter().max().unwrap_or(0).max(most);
    }
    assert!(most > 60, "no block took more than {most} passes");
    let slowest = passes(&slowest(256));
    assert_eq!(slowest.len(), BLOCKS);
    assert!(slowest.into_iter().all(|passes| passes <= 65 * 256 + 1));
}
