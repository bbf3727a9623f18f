//! The deadline with periods, overheads and limits at their ends, and with limits at the figures themselves.

use crate::one_read::with_totals;
use charts::random_times::halved;
use compare::deadlines;
use compare::group::Group;
use compare::impossible::IMPOSSIBLE;
use compare::roundings::FIGURE;
use compare::sheet::Sheet;
use compare::sheets;
use compare::times::{DEADLINE, EARLIEST_BESIDE, LATEST_BESIDE, NEGATIVE_ZERO, VERDICT};

const SMALLEST: f64 = f64::from_bits(1);

/// Times and what is none, on both sides of each boundary.
const FLOATS: [f64; 26] = [
    0.0,
    -0.0,
    SMALLEST,
    f64::from_bits((1 << 52) - 1),
    f64::MIN_POSITIVE,
    halved(30),
    0.1,
    0.125,
    0.25,
    1.0 / 3.0,
    1.0,
    2.5,
    1e300,
    f64::from_bits(f64::MAX.to_bits() - 1),
    f64::MAX,
    f64::INFINITY,
    f64::NEG_INFINITY,
    f64::from_bits(0x7FF0_0000_0000_0001),
    f64::from_bits(0x7FF8_0000_0000_0000),
    f64::from_bits(0x7FFF_FFFF_FFFF_FFFF),
    f64::from_bits(0xFFF0_0000_0000_0001),
    f64::from_bits(0xFFF8_0000_0000_0000),
    -SMALLEST,
    -0.125,
    -1.0,
    f64::MIN,
];

/// Those that there are, and some that would be one of them if few bits counted.
const KINDS: [u64; 9] = [0, 1, 2, 3, 255, 256, 1 << 32, (1 << 32) + 2, u64::MAX];

/// Every two of a list.
fn pairs<T: Copy, const COUNT: usize>(list: [T; COUNT]) -> impl Iterator<Item = (T, T)> {
    list.into_iter().flat_map(move |one| list.map(|two| (one, two)))
}

#[test]
fn every_period_with_every_overhead() {
    let mut group = Group::of("periods and overheads");
    for (low, high) in [(0, 0), (0, 1), (1, 2), (2, 20), (65_534, 65_535)] {
        with_totals(&mut group, low, high, |random, tally, asked| {
            let sheets = pairs(FLOATS).flat_map(|(period, overhead)| {
                KINDS.map(|kind| Sheet {
                    period,
                    overhead,
                    kind,
                    earliest: 0.0,
                    latest: 2.5,
                })
            });
            deadlines::ask_all(random, tally, asked, sheets)
        });
    }
    let tally = group.end();
    tally.expect_each(DEADLINE, 0..=0, 2_000);
    tally.expect_each(DEADLINE, 18..=18, 10_000);
    tally.expect_each(FIGURE, 0..=4, 100);
    for impossible in &IMPOSSIBLE[..8] {
        tally.expect(impossible, 100);
    }
}

#[test]
fn every_two_limits_of_each_kind() {
    let mut group = Group::of("two limits of each kind");
    // 2 and 20 come to 0.25 and 2.5 twice, to figures that are rounded, to 2 and 20 of the smallest, to both sides of the largest, to infinity
    // twice; and a period of 0
    for (period, overhead) in [
        (0.125, 0.0),
        (0.125, -0.0),
        (0.1, 0.05),
        (SMALLEST, 0.0),
        (f64::MAX / 4.0, 0.0),
        (f64::MAX, f64::MAX),
        (0.0, 0.0),
    ] {
        with_totals(&mut group, 2, 20, |random, tally, asked| {
            let sheets = pairs(FLOATS).flat_map(|(earliest, latest)| {
                KINDS.map(|kind| Sheet {
                    period,
                    overhead,
                    kind,
                    earliest,
                    latest,
                })
            });
            deadlines::ask_all(random, tally, asked, sheets)
        });
    }
    let tally = group.end();
    for impossible in &IMPOSSIBLE[8..] {
        tally.expect(impossible, 100);
    }
    for zero in NEGATIVE_ZERO {
        tally.expect(zero, 50);
    }
}

#[test]
fn each_limit_at_its_figure_and_beside_it() {
    let mut group = Group::of("limits at the figures");
    for (low, high) in [(0, 0), (0, 3), (3, 3), (2, 20), (9_999, 10_000), (0, 65_535)] {
        with_totals(&mut group, low, high, |random, tally, asked| {
            for _ in 0..600 {
                let clock = sheets::clock(random, high.into());
                let sheet = sheets::with_limits(random, asked.totals, clock);
                let [low, high] = sheets::figures(asked.totals, clock);
                let around = |figure: u64| {
                    let next = [figure.saturating_sub(1), figure, figure + 1].map(f64::from_bits);
                    [next[0], next[1], next[2], 0.0, -0.0, f64::NAN, f64::INFINITY]
                };
                let limits = around(low)
                    .into_iter()
                    .flat_map(|earliest| around(high).map(|latest| (earliest, latest)));
                let sheets = limits.flat_map(|(earliest, latest)| {
                    [1, 2].map(|kind| Sheet {
                        kind,
                        earliest,
                        latest,
                        ..sheet
                    })
                });
                deadlines::ask_all(random, tally, asked, sheets)?;
            }
            Ok(())
        });
    }
    let tally = group.end();
    tally.expect_each(LATEST_BESIDE, 0..=3, 5_000);
    tally.expect_each(EARLIEST_BESIDE, 0..=3, 1_000);
    for verdict in &VERDICT[2..] {
        tally.expect(verdict, 100);
    }
}
