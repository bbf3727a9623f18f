//! Totals as times, and whether they keep a deadline: examples worked out by hand.

use charts::random_times::halved;
use second::clock::ClockSheet;
use second::deadline::{judged, Deadline, Judged};
use second::limits::{BLOCKS, CLASSES};
use second::time::Time;
use second::totals::Totals;

const LARGEST: f64 = f64::MAX;

fn sheet(period: f64, overhead: f64) -> ClockSheet {
    ClockSheet { period, overhead }
}

/// The totals judged, which are not refused.
fn answer(low: u64, high: u64, sheet: ClockSheet, deadline: Deadline) -> Judged {
    judged(Ok(Totals { low, high }), sheet, Some(deadline)).expect("all times are possible")
}

/// The bits of what one total comes to.
fn figure(total: u64, sheet: ClockSheet) -> u64 {
    let Judged { low, high, met } = answer(total, total, sheet, Deadline::None);
    assert!(low == high && met);
    low.bits()
}

/// Whether totals of 2 and 20 keep a deadline: at 0.125 microseconds they are 0.25 and 2.5.
fn met(deadline: Deadline) -> bool {
    let judged = answer(2, 20, sheet(0.125, 0.0), deadline);
    assert_eq!(
        (judged.low.bits(), judged.high.bits()),
        (0.25_f64.to_bits(), 2.5_f64.to_bits())
    );
    judged.met
}

fn window(earliest: f64, latest: f64) -> Deadline {
    Deadline::Window { earliest, latest }
}

/// The floats just below and just above one.
fn beside(float: f64) -> [f64; 2] {
    [float.to_bits() - 1, float.to_bits() + 1].map(f64::from_bits)
}

#[test]
fn the_period_is_multiplied_and_then_the_overhead_added() {
    assert_eq!(figure(20, sheet(0.125, 0.0)), 2.5_f64.to_bits());
    assert_eq!(figure(20, sheet(0.125, 1.5)), 4.0_f64.to_bits());
    assert_eq!(figure(0, sheet(0.125, 1.5)), 1.5_f64.to_bits());
    assert_eq!(figure(0, sheet(0.125, 0.0)), 0);
    assert_eq!(figure(3, sheet(0.1, 0.0)), 0x3FD3_3333_3333_3334);
}

#[test]
fn product_and_sum_are_rounded_one_after_the_other() {
    // 5 + 5 units in the last place of 1: that is one and a quarter in the last place of 5, and only one is left
    let above_one = f64::from_bits(1.0_f64.to_bits() + 1);
    assert_eq!(figure(5, sheet(above_one, 0.0)), 5.0_f64.to_bits() + 1);
    // a quarter more comes too late; together they would have been one and a half, and so two, which is even
    let quarter = halved(52);
    assert_eq!(figure(5, sheet(above_one, quarter)), 5.0_f64.to_bits() + 1);
    // two rounding steps up: three halves to the even two, and then half of one more, to the even two
    let half = halved(52);
    assert_eq!(figure(3, sheet(above_one, 0.0)), 3.0_f64.to_bits() + 2);
    assert_eq!(figure(3, sheet(above_one, half)), 3.0_f64.to_bits() + 2);
}

#[test]
fn limits_are_included() {
    let [below, above] = beside(2.5);
    assert_eq!(
        [below, 2.5, above].map(|latest| met(Deadline::Latest(latest))),
        [false, true, true]
    );
    assert_eq!(
        [below, 2.5, above].map(|latest| met(window(0.0, latest))),
        [false, true, true]
    );
    let [below, above] = beside(0.25);
    assert_eq!(
        [below, 0.25, above].map(|earliest| met(window(earliest, 9.0))),
        [true, true, false]
    );
    assert!(met(window(0.25, 2.5)));
}

#[test]
fn the_earliest_holds_the_low_figure_and_the_latest_the_high_one() {
    assert!(!met(Deadline::Latest(1.0)));
    assert!(!met(window(1.0, 3.0)));
    assert!(!met(window(0.0, 1.0)));
    assert!(!met(window(1.0, 1.0)));
    assert!(met(window(0.0, 3.0)));
}

#[test]
fn no_deadline_is_always_met() {
    assert!(met(Deadline::None));
    assert!(answer(2, 20, sheet(LARGEST, LARGEST), Deadline::None).met);
}

#[test]
fn a_window_of_one_point_is_met_by_that_point() {
    let point = |low, high| answer(low, high, sheet(0.125, 0.0), window(2.5, 2.5)).met;
    assert!(point(20, 20));
    assert!(!point(19, 20) && !point(20, 21) && !point(19, 19) && !point(21, 21));
}

#[test]
fn an_infinite_figure_keeps_any_earliest_and_no_latest() {
    let Judged { low, high, met } = answer(1, 2, sheet(LARGEST, 0.0), Deadline::Latest(LARGEST));
    assert_eq!((low.bits(), high, met), (LARGEST.to_bits(), Time::Infinite, false));
    assert!(answer(1, 1, sheet(LARGEST, 0.0), Deadline::Latest(LARGEST)).met);
    assert!(!answer(2, 2, sheet(LARGEST, 0.0), window(LARGEST, LARGEST)).met);
    assert!(answer(1, 1, sheet(LARGEST, 0.0), window(LARGEST, LARGEST)).met);
    // the product alone is finite, the sum is not
    assert_eq!(figure(1, sheet(LARGEST, LARGEST)), f64::INFINITY.to_bits());
    assert_eq!(figure(1, sheet(LARGEST, 1.0)), LARGEST.to_bits());
}

#[test]
fn zeros_with_a_sign_are_zeros() {
    assert_eq!(figure(0, sheet(0.1, -0.0)), 0);
    assert_eq!(figure(3, sheet(0.1, -0.0)), figure(3, sheet(0.1, 0.0)));
    let none = |deadline| answer(0, 0, sheet(0.1, -0.0), deadline).met;
    assert!(none(Deadline::Latest(-0.0)) && none(window(-0.0, 0.0)) && none(window(0.0, -0.0)));
    assert!(!answer(0, 1, sheet(0.1, 0.0), Deadline::Latest(-0.0)).met);
}

#[test]
fn the_smallest_period_counts_units() {
    let smallest = f64::from_bits(1);
    assert_eq!(figure(77, sheet(smallest, 0.0)), 77);
    assert_eq!(figure(77, sheet(smallest, smallest)), 78);
    assert!(answer(77, 77, sheet(smallest, 0.0), Deadline::Latest(f64::from_bits(77))).met);
    assert!(!answer(77, 77, sheet(smallest, 0.0), Deadline::Latest(f64::from_bits(76))).met);
}

/// All classes unsure or missing at the highest costs and ceilings, and a first load of each block: more than any total.
const MOST: u64 = CLASSES as u64 * 65_535 * 65_535 + BLOCKS as u64 * 65_535;

#[test]
fn every_total_is_a_float() {
    assert_eq!(MOST >> 53, 0);
    assert_eq!(figure(MOST, sheet(1.0, 0.0)), (MOST as f64).to_bits());
}

#[test]
fn a_power_of_two_shifts_the_total() {
    for power in 0..=30 {
        for total in [1, 2, 3, 580, 65_535, (1 << 43) - 1, MOST - 1, MOST] {
            let places = total.ilog2() as u64;
            let fraction = (total << (52 - places)) - (1 << 52);
            let expected = 1.0_f64.to_bits() + (places << 52) - (power << 52) + fraction;
            assert_eq!(
                figure(total, sheet(halved(power), 0.0)),
                expected,
                "{total} times 2^-{power}"
            );
        }
    }
}
