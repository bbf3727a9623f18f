//! Nodes that a fact rules out (rule 18.7): their kept blocks pay for no first load.

use crate::small::{analysed, grounds, COSTS, HIGH, LOW};
use charts::{Chart, Claim, Record};

/// A step that leads to the read of a block, and to another step, which leads to a read of another block and to one of the first: nodes 0 to 4, of
/// which 1, 2 and 3 read. All lead back.
fn around() -> Chart {
    let chart = Chart::of(vec![
        Record::step().to(1).to(4),
        Record::read(0x00).to(0),
        Record::read(0x10).to(0),
        Record::read(0x00).to(0),
        Record::step().to(2).to(3),
    ]);
    assert_eq!(analysed(&chart).classes, [4, 4, 5, 4, 5, 4, 5, 4, 4, 4]);
    chart
}

/// Three reads at the most, and one fact more.
fn bound(coefficients: [i64; 5], limit: i64) -> u64 {
    let reads = Claim::of(HIGH, 5, 0, 1).with(&[0, 1, 1, 1, 0], 3, 1);
    let claim = reads.with(&coefficients, limit, 0);
    claim.bound(&grounds(&around(), COSTS)).expect("nothing is refused")
}

#[test]
fn a_block_pays_if_one_of_its_nodes_is_not_ruled_out() {
    assert_eq!(bound([0; 5], 0), 3 + 18);
    assert_eq!(bound([0, 1, 0, 0, 0], 0), 3 + 18);
    assert_eq!(bound([0, 0, 0, 1, 0], 0), 3 + 18);
    assert_eq!(bound([0, 1, 0, 1, 0], 0), 3 + 9);
    assert_eq!(bound([0, 0, 1, 0, 0], 0), 3 + 9);
    assert_eq!(bound([0, 7, 1 << 24, 1, 0], 0), 3);
    assert_eq!(bound([5, 0, 0, 0, 1], 0), 3 + 18);
}

#[test]
fn a_limit_of_0_is_enough_and_1_is_too_much() {
    for (limit, loads) in [(1, 18), (0, 9), (-1, 9), (-(1 << 24), 9)] {
        assert_eq!(bound([0, 0, 3, 0, 0], limit), 3 + loads, "limit {limit}");
    }
}

#[test]
fn a_coefficient_below_0_anywhere_rules_nothing_out() {
    assert_eq!(bound([-1, 0, 1, 0, 0], 0), 3 + 18);
    assert_eq!(bound([0, 0, 1, 0, -1], -5), 3 + 18);
    assert_eq!(bound([0, 0, -1, 0, 0], 0), 3 + 18);
}

#[test]
fn two_facts_rule_out_what_neither_does_alone() {
    let claim = Claim::of(HIGH, 5, 0, 1)
        .with(&[0, 1, 1, 1, 0], 3, 1)
        .with(&[0, 1, 0, 0, 0], 0, 0)
        .with(&[0, 0, 0, 1, 0], 0, 0);
    assert_eq!(claim.bound(&grounds(&around(), COSTS)), Ok(3 + 9));
}

/// Its visits still count as the certificate has them, and on the low side nothing is paid for first loads.
#[test]
fn nothing_else_changes() {
    let low = Claim::of(LOW, 5, 0, 1).with(&[0, -1, -1, -1, 0], -3, 1);
    assert_eq!(low.bound(&grounds(&around(), COSTS)), Ok(3));
    let ruled_out = low.with(&[0, 0, 1, 0, 0], 0, 0);
    assert_eq!(ruled_out.bound(&grounds(&around(), COSTS)), Ok(3));
}
