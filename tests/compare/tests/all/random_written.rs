//! What random charts have to have brought to the functions that take charts apart and write them.

use compare::apart::{EVERY, THERE};
use compare::ask::{BLOCKS, NODE, WRITE};
use compare::draw::{BLOCKS_LENGTH, CHART_LENGTH, LENGTH_KINDS, NODE_NUMBER, NODE_NUMBERS};
use compare::given_damage::DAMAGE;
use compare::given_drawn::DRAWN;
use compare::given_wide::{LENGTHS, LENGTH_OF_ALL, LENGTH_OF_ONE, WIDES, WIDE_IN_HEADER, WIDE_IN_LIST};
use compare::raw_parts::{FIELDS_LIST, NODE_ROOM};
use compare::tally::Tally;
use compare::writing::{AGAIN, AS_READ, READ_BACK};
use compare::written::{FRESH, OLD};

pub fn expect(tally: &Tally) {
    expect_apart(tally);
    expect_answers(tally);
    expect_given(tally);
}

/// Every refusal of a node and of the list of blocks, nodes that there are and are not, and lists of every length.
fn expect_apart(tally: &Tally) {
    tally.expect_each(NODE, 0..=10, 100);
    tally.expect_each(BLOCKS, 0..=11, 100);
    tally.expect_each(THERE, 0..=1, 30_000);
    tally.expect_each(NODE_NUMBER, 0..=NODE_NUMBERS - 1, 10_000);
    tally.expect_each(BLOCKS_LENGTH, 0..=LENGTH_KINDS - 1, 3_000);
    tally.expect_each(EVERY, 0..=0, 100_000);
    tally.expect_each(EVERY, 1..=2, 50);
    tally.expect_each(FIELDS_LIST, 0..=10, 1_000);
    tally.expect_each(NODE_ROOM, 0..=3, 1_000);
}

/// Every refusal of the writer, and those that bytes have too; none of bytes alone.
fn expect_answers(tally: &Tally) {
    for number in [0, 3, 4, 5, 6, 8, 9, 10, 11] {
        tally.expect_each(WRITE, number..=number, 10_000);
    }
    for number in [1, 2, 7] {
        assert_eq!(tally.count(WRITE, number), 0, "the writer gives no refusal {number}");
    }
    for number in [0, 3, 4, 5, 6, 8, 9, 10] {
        tally.expect_each(AGAIN, number..=number, 300);
        tally.expect_each(AS_READ, number..=number, 5_000);
    }
    tally.expect(READ_BACK, 100_000);
    tally.expect(FRESH, 200_000);
    tally.expect(OLD, 1_000);
}

/// Everything that can be wrong with what a chart is written from.
fn expect_given(tally: &Tally) {
    tally.expect_each(CHART_LENGTH, 0..=LENGTH_KINDS - 1, 30_000);
    for kind in DRAWN {
        tally.expect_each(kind, 0..=0, 30_000);
    }
    for kind in [0, 1, 2, 4] {
        tally.expect_each(DRAWN[kind], 1..=1, 300);
    }
    assert_eq!(tally.count(DRAWN[3], 1), 0, "lists of other lengths are not written");
    for kind in DAMAGE {
        tally.expect(kind, 30_000);
    }
    for number in WIDE_IN_HEADER.into_iter().chain(WIDE_IN_LIST) {
        tally.expect_each(number, 0..=WIDES - 1, 2_000);
    }
    for list in LENGTH_OF_ONE {
        tally.expect_each(list, 0..=LENGTHS - 1, 3_000);
    }
    tally.expect_each(LENGTH_OF_ALL, 0..=LENGTHS - 1, 10_000);
}
