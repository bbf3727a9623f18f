//! What random charts have to have brought to the deadline.

use compare::impossible::{BEHIND, IMPOSSIBLE, SEVERAL};
use compare::laws::{EXACT, GROWTH, MOST_HALVES, WALK};
use compare::raw_deadline::{DEADLINE_ROOM, FIGURES_LIST};
use compare::roundings::{FIGURE, PRODUCT, SUM, TOGETHER};
use compare::tally::Tally;
use compare::times::{DEADLINE, EARLIEST_BESIDE, LATEST_BESIDE, NEGATIVE_ZERO, OVERLOOKED, VERDICT};

pub fn expect(tally: &Tally) {
    expect_refusals(tally);
    expect_verdicts(tally);
    expect_figures(tally);
    expect_laws(tally);
}

/// Every refusal, impossible times behind each of the others, and each reason for them alone.
fn expect_refusals(tally: &Tally) {
    for numbers in [0..=11, 13..=18] {
        tally.expect_each(DEADLINE, numbers, 500);
    }
    for numbers in [1..=11, 13..=17] {
        tally.expect_each(BEHIND, numbers, 200);
    }
    for impossible in IMPOSSIBLE {
        tally.expect(impossible, 1_000);
    }
    tally.expect_each(SEVERAL, 2..=3, 300);
    tally.expect_each(FIGURES_LIST, 0..=10, 10_000);
    tally.expect_each(DEADLINE_ROOM, 0..=3, 5_000);
}

/// Deadlines that are met and that are not, for each reason, with limits at the figures, next to them and away from them.
fn expect_verdicts(tally: &Tally) {
    for word in OVERLOOKED.into_iter().chain(NEGATIVE_ZERO) {
        tally.expect(word, 5_000);
    }
    for verdict in VERDICT {
        tally.expect(verdict, 1_000);
    }
    tally.expect_each(LATEST_BESIDE, 0..=4, 20_000);
    tally.expect_each(EARLIEST_BESIDE, 0..=4, 10_000);
}

/// Figures of every size, roundings of every kind, and many that a single rounding would change.
fn expect_figures(tally: &Tally) {
    tally.expect_each(FIGURE, 0..=4, 300);
    tally.expect_each(PRODUCT, 0..=5, 2_000);
    tally.expect_each(SUM, 0..=4, 3_000);
    tally.expect_each(SUM, 5..=5, 50);
    tally.expect(TOGETHER, 10_000);
}

fn expect_laws(tally: &Tally) {
    tally.expect_each(EXACT, 0..=MOST_HALVES, 200);
    tally.expect_each(GROWTH, 0..=2, 10_000);
    tally.expect_each(WALK, 0..=1, 50_000);
}
