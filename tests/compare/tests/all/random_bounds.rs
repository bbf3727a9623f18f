//! What random charts have to have brought to the bounds.

use compare::bound_laws::{AS_TOTALS, WALK};
use compare::bounded::{BOUND, DIVIDED, EDGES, FACTS, LIKE, MANY};
use compare::claims::CERTIFICATE;
use compare::raw_bound::BOUND_ROOM;
use compare::tally::Tally;
use compare::unfit::{BEHIND, BREAKS, LENGTHS, RANGES, SEVERAL};

pub fn expect(tally: &Tally) {
    expect_refusals(tally);
    expect_bounds(tally);
    expect_laws(tally);
}

/// Every refusal, unfit claims behind each of those that go before, and each reason alone.
fn expect_refusals(tally: &Tally) {
    tally.expect_each(BOUND, 1..=10, 200);
    for number in [11, 13, 15, 23, 24, 25] {
        tally.expect_each(BOUND, number..=number, 10_000);
    }
    tally.expect_each(BEHIND, 1..=10, 100);
    for number in [11, 13, 15, 23, 24] {
        tally.expect_each(BEHIND, number..=number, 2_000);
    }
    for word in LENGTHS.into_iter().chain(RANGES).chain(BREAKS) {
        tally.expect(word, 500);
    }
    tally.expect_each(SEVERAL, 2..=3, 100);
    tally.expect_each(BOUND_ROOM, 0..=1, 10_000);
}

/// Bounds on both sides, with few facts and many, divided in every way; and each case in which something is passed over or is just enough.
fn expect_bounds(tally: &Tally) {
    tally.expect_each(BOUND, 0..=0, 200_000);
    tally.expect_each(CERTIFICATE, 0..=2, 3_000);
    tally.expect_each(FACTS, 0..=MANY, 1_000);
    for side in DIVIDED {
        tally.expect_each(side, 0..=3, 5_000);
    }
    for like in LIKE {
        tally.expect(like, 3_000);
    }
    for edge in EDGES {
        tally.expect(edge, 300);
    }
}

fn expect_laws(tally: &Tally) {
    tally.expect_each(AS_TOTALS, 0..=1, 5_000);
    for walk in WALK {
        tally.expect(walk, 2_000);
    }
}
