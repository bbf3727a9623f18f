//! The sample and its report, whole, and charts on both sides of what is refused.

use charts::{Chart, Record};
use second::limits::{BLOCKS, NODES};
use second::report::report;

#[test]
fn the_sample_has_the_report_of_section_14() {
    let sample = [
        0x01, 0x40, 0x24, 0x00, 0x00, 0x30, 0x00, 0x00, //
        0x00, 0x00, 0x00, 0x00, 0x10, 0x01, 0x00, 0x00, //
        0x40, 0x00, 0x00, 0x00, 0x20, 0x01, 0x00, 0x20, //
        0x40, 0x00, 0x00, 0x00, 0x00, 0x00, 0x00, 0x00,
    ];
    assert_eq!(
        report(&sample),
        "nodes 3 blocks 1 passes 2\n0 none none\n1 kept none\n2 hit none\n"
    );
}

#[test]
fn a_read_from_empty_is_a_miss_and_a_node_behind_it_unreached() {
    let chart = Chart::of(vec![Record::read(0), Record::step()]);
    assert_eq!(
        report(&chart.bytes()),
        "nodes 2 blocks 1 passes 1\n0 miss none\n1 unreached unreached\n"
    );
}

#[test]
fn the_most_blocks_pass_and_one_more_is_refused() {
    let addresses: Vec<u64> = (0..=BLOCKS as u64).map(|block| block * 16).collect();
    let begins = format!("nodes {BLOCKS} blocks {BLOCKS} passes 2\n");
    assert!(report(&Chart::straight(&addresses[..BLOCKS]).bytes()).starts_with(&begins));
    assert_eq!(
        report(&Chart::straight(&addresses).bytes()),
        format!("refused 10 at {BLOCKS}\n")
    );
}

#[test]
fn eight_ways_pass_and_0_and_9_do_not() {
    let ways = |ways| report(&Chart::sample().shaped(0, ways, 1).bytes());
    assert_eq!(
        ways(8),
        "nodes 3 blocks 1 passes 2\n0 none none\n1 kept none\n2 hit none\n"
    );
    assert_eq!(ways(0), "refused 3 at 0\n");
    assert_eq!(ways(9), "refused 3 at 0\n");
}

#[test]
fn seven_bytes_give_1() {
    assert_eq!(report(&Chart::sample().bytes()[..7]), "refused 1 at 0\n");
}

#[test]
fn an_arrow_to_n_gives_9_and_to_n_less_1_passes() {
    let leading_to = |target| {
        let mut chart = Chart::sample();
        chart.records[2] = chart.records[2].to(target);
        report(&chart.bytes())
    };
    assert_eq!(leading_to(3), "refused 9 at 2\n");
    assert_eq!(
        leading_to(2),
        "nodes 3 blocks 1 passes 2\n0 none none\n1 kept none\n2 hit none\n"
    );
}

#[test]
fn two_arrows_to_one_node_give_9_and_to_two_nodes_pass() {
    let leading_to = |first, second| {
        let mut chart = Chart::sample();
        chart.records[2] = chart.records[2].to(first).to(second);
        report(&chart.bytes())
    };
    for target in 0..3 {
        assert_eq!(leading_to(target, target), "refused 9 at 2\n");
    }
    assert_eq!(
        leading_to(2, 0),
        "nodes 3 blocks 1 passes 2\n0 none none\n1 kept none\n2 hit none\n"
    );
}

#[test]
fn an_input_longer_than_the_longest_chart_is_too_long() {
    let longest = Chart::steps(NODES).bytes();
    let begins = format!("nodes {NODES} blocks 0 passes 1\n0 none none\n1 unreached unreached\n");
    assert!(report(&longest).starts_with(&begins));
    let mut longer = longest;
    longer.resize(longer.len() + 3_000, 255);
    assert_eq!(report(&longer), "refused 8 at 0\n");
}
