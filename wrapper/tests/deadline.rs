//! `deadline`: each time counts where its name says, figures are rounded twice, refusal 18 comes last, and nothing is written.

mod lent;
mod question;

use lent::NODES;
use question::{Fault, Question, FAULTS, HIGH, LOW};
use veilbuzz::{deadline, ClockSheet, Costs, Deadline, Judged, Refusal};

/// The answer to a question, and that all is left as it was lent.
fn asked(question: &Question, sheet: ClockSheet, limits: Deadline) -> Result<Judged, Refusal> {
    let before = question.clone();
    let (table, costs, bounds) = (question.lent.table(), question.costs, question.bounds());
    let answer = deadline(&question.chart, table, costs, bounds, sheet, limits);
    assert_eq!(*question, before);
    answer
}

fn judged(sheet: ClockSheet, limits: Deadline) -> Result<Judged, Refusal> {
    asked(&Question::fresh(), sheet, limits)
}

fn sheet(period: f64, overhead: f64) -> ClockSheet {
    ClockSheet { period, overhead }
}

fn window(earliest: f64, latest: f64) -> Deadline {
    Deadline::Window { earliest, latest }
}

/// The figures without a deadline, which is met whatever they are.
fn figures(sheet: ClockSheet) -> [f64; 2] {
    let Judged { met, low, high } = judged(sheet, Deadline::None).expect("the sheet is possible");
    assert!(met);
    [low, high]
}

fn is_met(sheet: ClockSheet, limits: Deadline) -> bool {
    judged(sheet, limits).expect("sheet and limits are possible").met
}

/// A period that is a power of two, so that nothing below is rounded: 8 MHz.
const EXACT: ClockSheet = ClockSheet {
    period: 0.125,
    overhead: 2.0,
};
const EARLIEST: f64 = 0.125 * LOW as f64 + 2.0;
const LATEST: f64 = 0.125 * HIGH as f64 + 2.0;

const IMPOSSIBLE: Result<Judged, Refusal> = Err(Refusal { number: 18, place: 0 });

#[test]
fn a_figure_is_a_total_times_the_period_and_the_overhead_on_top() {
    assert_eq!(figures(EXACT), [4.25, 22_762.5]);
    assert_eq!(figures(sheet(2.0, 0.125)), [36.125, 364_168.125]);
    let (period, overhead) = (0.1, 0.3);
    let expected = [LOW, HIGH].map(|total| total as f64 * period + overhead);
    assert_eq!(figures(sheet(period, overhead)), expected);
}

#[test]
fn product_and_sum_are_rounded_one_after_the_other() {
    for (period, overhead, place) in [(0.1, 2.0, 0), (0.7, 0.3, 0), (0.3, 0.2, 1), (1.0 / 3.0, 0.3, 1)] {
        let total = [LOW, HIGH][place] as f64;
        let figure = figures(sheet(period, overhead))[place];
        assert_eq!(figure, total * period + overhead);
        assert_ne!(
            figure,
            total.mul_add(period, overhead),
            "one rounding would do for {period}"
        );
    }
}

#[test]
fn a_latest_time_is_met_up_to_itself() {
    assert!(is_met(EXACT, Deadline::Latest(LATEST)));
    assert!(!is_met(EXACT, Deadline::Latest(LATEST.next_down())));
    assert!(!is_met(EXACT, Deadline::Latest(EARLIEST)));
}

#[test]
fn a_window_is_met_with_both_its_limits() {
    assert!(is_met(EXACT, window(EARLIEST, LATEST)));
    assert!(!is_met(EXACT, window(EARLIEST.next_up(), LATEST)));
    assert!(!is_met(EXACT, window(EARLIEST, LATEST.next_down())));
    // a window of one time, and costs and bounds that come to just one total
    let mut question = Question::fresh();
    (question.costs, question.ceilings) = (Costs { hit: 3, miss: 3 }, vec![1, 2, 3, 0]);
    let answer = asked(&question, EXACT, window(EARLIEST, EARLIEST));
    let (low, high) = (EARLIEST, EARLIEST);
    assert_eq!(answer, Ok(Judged { met: true, low, high }));
}

#[test]
fn a_verdict_comes_with_both_figures_whichever_it_is() {
    let (low, high) = (EARLIEST, LATEST);
    for (limits, met) in [(LATEST, true), (1.0, false)] {
        let answer = judged(EXACT, Deadline::Latest(limits));
        assert_eq!(answer, Ok(Judged { met, low, high }));
    }
}

#[test]
fn what_is_too_large_is_infinity_and_meets_no_latest_time() {
    // by the product, and by the sum
    for sheet in [sheet(f64::MAX, 0.0), sheet(f64::MAX / 32.0, f64::MAX)] {
        assert_eq!(figures(sheet), [f64::INFINITY; 2]);
        assert!(!is_met(sheet, Deadline::Latest(f64::MAX)));
        assert!(!is_met(sheet, window(f64::MAX, f64::MAX)));
    }
    // the low one is not too large
    let sheet = sheet(f64::MAX / 32.0, 0.0);
    assert_eq!(figures(sheet), [18.0 * (f64::MAX / 32.0), f64::INFINITY]);
    assert!(!is_met(sheet, window(0.0, f64::MAX)));
}

#[test]
fn subnormal_times_count() {
    let least = f64::from_bits(1);
    let sheet = sheet(least, least);
    let (low, high) = (f64::from_bits(LOW + 1), f64::from_bits(HIGH + 1));
    assert_eq!(figures(sheet), [low, high]);
    assert!(is_met(sheet, window(low, high)));
    assert!(!is_met(sheet, window(low.next_up(), high)));
    assert!(!is_met(sheet, window(low, high.next_down())));
}

#[test]
fn either_zero_is_an_overhead_and_a_limit_and_neither_is_a_period() {
    for zero in [0.0, -0.0] {
        assert_eq!(judged(sheet(zero, 2.0), Deadline::None), IMPOSSIBLE);
        assert_eq!(figures(sheet(0.125, zero)), [2.25, 22_760.5]);
        assert!(!is_met(EXACT, Deadline::Latest(zero)));
        assert!(is_met(EXACT, window(zero, LATEST)));
        for other in [0.0, -0.0] {
            assert!(!is_met(EXACT, window(zero, other)));
        }
    }
    // nothing is paid, and of two zeros that differ in sign the sum is the one above
    let mut question = Question::fresh();
    (question.floors, question.ceilings) = (vec![0; NODES], vec![0; NODES]);
    let answer = asked(&question, sheet(0.125, -0.0), window(0.0, -0.0)).expect("all is possible");
    assert!(answer.met);
    assert_eq!([answer.low, answer.high].map(f64::to_bits), [0, 0]);
}

/// What is no time.
const NO_TIMES: [f64; 6] = [
    f64::NAN,
    -f64::NAN,
    f64::INFINITY,
    f64::NEG_INFINITY,
    -1.0,
    -f64::from_bits(1),
];

#[test]
fn a_time_that_is_none_is_refusal_18_wherever_it_stands() {
    for time in NO_TIMES {
        assert_eq!(judged(sheet(time, 2.0), Deadline::None), IMPOSSIBLE);
        assert_eq!(judged(sheet(0.125, time), Deadline::None), IMPOSSIBLE);
        assert_eq!(judged(EXACT, Deadline::Latest(time)), IMPOSSIBLE);
        assert_eq!(judged(EXACT, window(time, LATEST)), IMPOSSIBLE);
        assert_eq!(judged(EXACT, window(EARLIEST, time)), IMPOSSIBLE);
    }
}

#[test]
fn a_window_the_wrong_way_round_is_refusal_18() {
    assert_eq!(judged(EXACT, window(LATEST, EARLIEST)), IMPOSSIBLE);
    assert_eq!(judged(EXACT, window(EARLIEST, EARLIEST.next_down())), IMPOSSIBLE);
}

/// Faults of floors and ceilings.
const FAULTS_OF_BOUNDS: [Fault; 4] = [
    (|question| question.floors.truncate(NODES - 1), 14, 0),
    (|question| question.ceilings.truncate(NODES - 1), 14, 0),
    (|question| question.ceilings[2] = 2, 16, 2),
    (|question| question.floors[3] = 1, 17, 3),
];

#[test]
fn what_the_totals_refuse_is_refused_before_impossible_times() {
    for (change, number, place) in FAULTS.into_iter().chain(FAULTS_OF_BOUNDS) {
        let mut question = Question::fresh();
        change(&mut question);
        for (sheet, limits) in [
            (EXACT, Deadline::None),
            (sheet(0.0, 2.0), Deadline::None),
            (EXACT, window(LATEST, EARLIEST)),
        ] {
            assert_eq!(asked(&question, sheet, limits), Err(Refusal { number, place }));
        }
    }
}
