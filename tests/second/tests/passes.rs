//! The number of passes, by hand from rules 9.1 to 9.6.

use charts::slowest::slowest;
use charts::{Chart, Record};
use second::analysis::Analysed;
use second::lending::Lending;
use second::limits::{NODES, PASSES};

/// The number of passes of a chart that settles.
fn passes(chart: &Chart) -> usize {
    match Lending::largest().analyse(&chart.bytes(), PASSES) {
        Analysed::Settled { passes, .. } => passes,
        other => panic!("{other:?}"),
    }
}

#[test]
fn one_node_without_arrows_takes_one_pass() {
    assert_eq!(passes(&Chart::steps(1)), 1);
}

#[test]
fn allowance_0_is_refusal_12() {
    let answer = Lending::largest().analyse(&Chart::steps(1).bytes(), 0);
    let unsettled = Analysed::Unsettled {
        allowance: 0,
        blocks: 0,
    };
    assert_eq!(answer, unsettled);
}

#[test]
fn a_straight_chart_settles_in_one_pass_and_one_that_changes_nothing() {
    assert_eq!(passes(&Chart::straight(&[0, 16, 32, 48])), 2);
}

#[test]
fn a_chain_that_runs_against_the_numbers_takes_a_pass_for_each_arrow() {
    let mut chart = Chart::reads(&[0; 5]);
    for node in 1..5 {
        chart.records[node] = chart.records[node].to(node as u64 - 1);
    }
    chart.header.entry = 4;
    assert_eq!(passes(&chart), 5);
}

#[test]
fn the_sample_takes_two_passes() {
    assert_eq!(passes(&Chart::sample()), 2);
}

#[test]
fn a_loop_of_two_reads_takes_three_passes() {
    // pass 1: node 0 is (2 2, 2 2), node 1 gets (0 2, 0 2), node 0 meets (1 0, 1 0) and is (2 2, 1 0)
    // pass 2: node 1 meets (0 2, 0 1) and is (0 2, 0 1); node 0 meets (1 0, 1 0), which changes nothing
    // pass 3 changes nothing
    let chart = Chart::of(vec![Record::read(0x00).to(1), Record::read(0x10).to(0)]);
    assert_eq!(passes(&chart), 3);
}

/// Node 3 leads to itself first. Its meeting with itself lowers its may age of block a, and from there block b would leave it younger
/// by one. The second target must not get that in the same pass; if it did, the second pass would change nothing.
#[test]
fn the_state_after_a_record_is_worked_out_once_for_both_arrows() {
    let (a, b, c) = (0x00, 0x10, 0x20);
    let chart = Chart::of(vec![
        Record::step().to(1).to(3),
        Record::read(b).to(2),
        Record::read(c).to(3),
        Record::read(a).to(3).to(4),
        Record::step(),
    ]);
    assert_eq!(passes(&chart), 3);
}

#[test]
fn the_slowest_charts_take_16_passes_for_each_node_less_53() {
    for nodes in [6, 7, 16, 66, 256, NODES] {
        assert_eq!(passes(&slowest(nodes)), 16 * nodes - 53, "of {nodes} nodes");
    }
}
