//! The order of the refusals of the totals and of the deadline: of several faults at once the first is told.

mod faults;
mod question;

use charts::random::Random;
use charts::random_charts::{damaged, whole};
use charts::Chart;
use faults::{first_of_any_is_told, Fault};
use question::{after, sample, Question};
use second::chart;
use second::clock::ClockSheet;
use second::deadline::{Deadline, Judged};
use second::limits::BLOCKS;
use second::refusal::Refusal;
use second::totals::{Bounds, Totals};

/// A fault for each refusal after the chart's own.
const FAULTS: [Fault<Question>; 6] = [
    (Refusal { number: 11, place: 0 }, |question| {
        question.table.may.pop();
    }),
    (Refusal { number: 13, place: 0 }, |question| question.table.must[0] = 1),
    (Refusal { number: 14, place: 0 }, |question| question.floors.push(0)),
    (Refusal { number: 15, place: 0 }, |question| question.costs.miss = 0),
    (Refusal { number: 16, place: 5 }, |question| question.floors[5] = 6),
    (Refusal { number: 17, place: 4 }, |question| question.floors[4] = 1),
];

/// A chart for each refusal of its own.
fn refused_charts() -> Vec<(Refusal, Vec<u8>)> {
    let header = |change: fn(&mut charts::Header)| {
        let mut chart = sample();
        change(&mut chart.header);
        chart.bytes()
    };
    let mut unruly = sample();
    unruly.records[4].size = 3;
    let many: Vec<u64> = (0..BLOCKS as u64 + 2).map(|block| block * 16).collect();
    vec![
        (Refusal::of(1), sample().bytes()[..7].to_vec()),
        (Refusal::of(2), header(|header| header.edition = 2)),
        (Refusal::of(3), header(|header| header.ways = 9)),
        (Refusal::of(4), header(|header| header.start = 2)),
        (Refusal::of(5), header(|header| header.nodes = 0)),
        (Refusal::of(6), header(|header| header.entry = 6)),
        (Refusal::of(7), header(|header| header.tail = 1)),
        (Refusal::of(8), header(|header| header.nodes = 7)),
        (Refusal::at(9, 4), unruly.bytes()),
        (Refusal::at(10, BLOCKS), Chart::reads(&many).bytes()),
    ]
}

#[test]
fn without_a_fault_there_are_totals() {
    assert_eq!(after(|_| ()), Ok(Totals { low: 2, high: 20 }));
}

#[test]
fn the_first_fault_of_any_is_refused() {
    first_of_any_is_told(&FAULTS, Question::accepted, Question::answer);
}

#[test]
fn refusals_of_the_chart_go_before_all_others() {
    let mut faulty = Question::accepted();
    for (_, spoil) in FAULTS {
        spoil(&mut faulty);
    }
    for (refusal, chart) in refused_charts() {
        for question in [&faulty, &Question::accepted()] {
            let question = Question {
                chart: chart.clone(),
                ..question.clone()
            };
            assert_eq!(question.answer(), Err(refusal));
        }
    }
}

#[test]
fn damaged_charts_are_refused_as_the_reader_refuses_them() {
    let mut refused = 0;
    for seed in 0..2_000 {
        let mut random = Random::new(seed);
        let chart = whole(&mut random);
        let chart = damaged(&mut random, chart);
        let Err(refusal) = chart::Chart::read(&chart) else {
            continue;
        };
        assert_eq!(
            after(|question| question.chart = chart.clone()),
            Err(refusal),
            "seed {seed}"
        );
        refused += 1;
    }
    assert!(refused > 500, "only {refused} charts were refused");
}

/// What the deadline answers to a question with such a sheet and a kind of deadline.
fn judged(question: &Question, period: f64, kind: u64) -> Result<Judged, Refusal> {
    let bounds = Bounds {
        floors: &question.floors,
        ceilings: &question.ceilings,
    };
    let sheet = ClockSheet { period, overhead: 0.0 };
    let asked = Deadline::of(kind, 2.0, 1.0);
    question
        .table
        .deadline(&question.chart, question.costs, bounds, sheet, asked)
}

/// Holds the deadline of a question that the totals refuse to the same refusal, possible or not.
fn refused_alike(question: &Question, refusal: Refusal) {
    for (period, kind) in [(0.125, 0), (0.125, 2), (0.125, 3), (-0.0, 1), (f64::NAN, 3)] {
        assert_eq!(judged(question, period, kind), Err(refusal), "{period} and {kind}");
    }
}

#[test]
fn impossible_times_go_behind_all_others() {
    let sound = Question::accepted();
    assert!(judged(&sound, 0.125, 0).is_ok());
    for (period, kind) in [(0.125, 2), (0.125, 3), (0.0, 0), (f64::INFINITY, 1)] {
        assert_eq!(judged(&sound, period, kind), Err(Refusal::of(18)));
    }
    for (refusal, spoil) in FAULTS {
        let mut question = Question::accepted();
        spoil(&mut question);
        refused_alike(&question, refusal);
    }
    for (refusal, chart) in refused_charts() {
        refused_alike(
            &Question {
                chart,
                ..Question::accepted()
            },
            refusal,
        );
    }
}
