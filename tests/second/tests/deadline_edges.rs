//! Both sides of refusal 18: which sheets and deadlines are impossible.

use second::clock::ClockSheet;
use second::deadline::{judged, Deadline};
use second::refusal::Refusal;
use second::totals::Totals;

const SMALLEST: f64 = f64::from_bits(1);

/// Infinities, NaNs quiet and not, with and without a sign, and floats below zero.
const NO_TIMES: [f64; 11] = [
    f64::INFINITY,
    f64::NEG_INFINITY,
    f64::from_bits(0x7FF0_0000_0000_0001),
    f64::from_bits(0x7FF7_FFFF_FFFF_FFFF),
    f64::from_bits(0x7FF8_0000_0000_0000),
    f64::from_bits(0xFFF8_0000_0000_0000),
    f64::from_bits(0xFFFF_FFFF_FFFF_FFFF),
    -SMALLEST,
    -0.125,
    -1.0,
    -f64::MAX,
];

const TIMES: [f64; 7] = [0.0, -0.0, SMALLEST, f64::MIN_POSITIVE, 0.125, 1e9, f64::MAX];

/// Whether a question is possible, with any totals.
fn possible(period: f64, overhead: f64, deadline: Option<Deadline>) -> bool {
    let answers = [(0, 0), (2, 20)]
        .map(|(low, high)| judged(Ok(Totals { low, high }), ClockSheet { period, overhead }, deadline).map(|_| ()));
    assert!(answers == [Ok(()); 2] || answers == [Err(Refusal::of(18)); 2]);
    answers[0].is_ok()
}

#[test]
fn a_period_is_above_zero_and_finite() {
    for period in TIMES {
        assert_eq!(possible(period, 0.0, Some(Deadline::None)), period > 0.0, "{period:e}");
    }
    for period in NO_TIMES {
        assert!(
            !possible(period, 0.0, Some(Deadline::None)),
            "{:016x}",
            period.to_bits()
        );
    }
}

#[test]
fn an_overhead_is_not_below_zero_and_finite() {
    for overhead in TIMES {
        assert!(possible(0.125, overhead, Some(Deadline::None)), "{overhead:e}");
    }
    for overhead in NO_TIMES {
        assert!(
            !possible(0.125, overhead, Some(Deadline::None)),
            "{:016x}",
            overhead.to_bits()
        );
    }
}

/// Whether a deadline is possible.
fn limited(deadline: Deadline) -> bool {
    possible(0.125, 0.0, Some(deadline))
}

#[test]
fn a_latest_time_is_not_below_zero_and_finite() {
    for latest in TIMES {
        assert!(limited(Deadline::Latest(latest)), "{latest:e}");
    }
    for latest in NO_TIMES {
        assert!(!limited(Deadline::Latest(latest)), "{:016x}", latest.to_bits());
    }
}

#[test]
fn a_window_has_two_times_the_right_way_round() {
    for earliest in TIMES {
        for latest in TIMES {
            let right = earliest <= latest;
            assert_eq!(
                limited(Deadline::Window { earliest, latest }),
                right,
                "{earliest:e} to {latest:e}"
            );
        }
        for limit in NO_TIMES {
            for (earliest, latest) in [(earliest, limit), (limit, earliest), (limit, limit)] {
                assert!(
                    !limited(Deadline::Window { earliest, latest }),
                    "{earliest:e} to {latest:e}"
                );
            }
        }
    }
}

#[test]
fn limits_that_a_kind_has_not_are_not_looked_at() {
    let of = |kind, earliest, latest| possible(0.125, 0.0, Deadline::of(kind, earliest, latest));
    for limit in NO_TIMES {
        assert!(of(0, limit, limit) && of(1, limit, 0.0));
        assert!(!of(1, 0.0, limit) && !of(2, limit, 1.0) && !of(2, 0.0, limit));
    }
    assert!(of(0, 2.0, 1.0) && of(1, 2.0, 1.0) && !of(2, 2.0, 1.0));
}

#[test]
fn there_are_three_kinds() {
    let of = |kind| possible(0.125, 0.0, Deadline::of(kind, 0.0, 1.0));
    assert!(of(0) && of(1) && of(2));
    for kind in [3, 4, 255, 256, 1 << 32, (1 << 32) + 1, 1 << 63, u64::MAX] {
        assert!(!of(kind), "{kind}");
    }
}
