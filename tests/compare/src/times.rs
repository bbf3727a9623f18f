//! What a deadline is asked with and what it comes to, counted.

use crate::expected::Timed;
use crate::impossible;
use crate::roundings;
use crate::sheet::Sheet;
use crate::tally::Tally;
use charts::random_times::INFINITE;
use second::time::units;
use std::cmp::Ordering;
use veilbuzz::{Refusal, Totals};

/// How the answers are counted, by the number of the refusal, 0 for none.
pub const DEADLINE: &str = "deadline, refusal";

/// What is accepted, since a kind has no such limit.
pub const OVERLOOKED: [&str; 4] = [
    "no deadline, beside an earliest that is no time",
    "no deadline, beside a latest that is no time",
    "a latest time, beside an earliest that is no time",
    "a latest time, beside an earliest above it",
];

/// What is accepted, though a sign stands before it.
pub const NEGATIVE_ZERO: [&str; 3] = [
    "an overhead of -0.0",
    "a latest time of -0.0",
    "an earliest time of -0.0",
];

/// Verdicts, by what decides.
pub const VERDICT: [&str; 11] = [
    "no deadline, met",
    "no deadline, met by an infinite figure",
    "a latest time, met",
    "a latest time, not met",
    "a latest time, not met by an infinite figure",
    "a window, met",
    "a window, not met: too early",
    "a window, not met: too late",
    "a window, not met: both",
    "a window, not met by two infinite figures",
    "a window of one point, met",
];

/// Where a limit stands: 0 below the figure that it is for, 1 next below it, 2 at it, 3 next above it, 4 above.
pub const LATEST_BESIDE: &str = "the latest time beside the high figure";
pub const EARLIEST_BESIDE: &str = "the earliest time beside the low figure";

/// Counts a question and its answer.
pub fn count(tally: &mut Tally, totals: Result<Totals, Refusal>, sheet: Sheet, answer: Result<Timed, Refusal>) {
    tally.at(DEADLINE, answer.map_or_else(|refusal| refusal.number, |_| 0));
    impossible::count(tally, totals.err(), sheet);
    if let (Ok(totals), Ok(timed)) = (totals, answer) {
        accepted(tally, sheet, timed);
        for (total, figure) in [totals.low, totals.high].into_iter().zip(timed.figures) {
            roundings::count(tally, total, sheet, figure);
        }
    }
}

/// Counts what was passed over, where the limits stand, and the verdict.
fn accepted(tally: &mut Tally, sheet: Sheet, timed: Timed) {
    let [low, high] = timed.figures;
    let is_time = |float: f64| units(float).is_some();
    let overlooked = [
        sheet.kind == 0 && !is_time(sheet.earliest),
        sheet.kind == 0 && !is_time(sheet.latest),
        sheet.kind == 1 && !is_time(sheet.earliest),
        sheet.kind == 1 && sheet.earliest > sheet.latest,
    ];
    let negative = |float: f64| float.to_bits() == 1 << 63;
    let zeros = [
        negative(sheet.overhead),
        sheet.kind > 0 && negative(sheet.latest),
        sheet.kind == 2 && negative(sheet.earliest),
    ];
    let words = OVERLOOKED
        .into_iter()
        .zip(overlooked)
        .chain(NEGATIVE_ZERO.into_iter().zip(zeros));
    for (word, has) in words {
        tally.add_if(has, word);
    }
    if sheet.kind > 0 {
        tally.at(LATEST_BESIDE, beside(sheet.latest, high));
    }
    if sheet.kind == 2 {
        tally.at(EARLIEST_BESIDE, beside(sheet.earliest, low));
    }
    verdict(tally, sheet, timed);
}

/// Where a limit stands, which is not below zero. The order of such floats is that of their bits, but for the sign of a zero.
fn beside(limit: f64, figure: u64) -> usize {
    let limit = limit.to_bits() << 1 >> 1;
    match limit.cmp(&figure) {
        Ordering::Less if limit + 1 < figure => 0,
        Ordering::Less => 1,
        Ordering::Equal => 2,
        Ordering::Greater if limit == figure + 1 => 3,
        Ordering::Greater => 4,
    }
}

fn verdict(tally: &mut Tally, sheet: Sheet, timed: Timed) {
    let [low, high] = timed.figures;
    let infinite = high == INFINITE;
    let early = sheet.kind == 2 && beside(sheet.earliest, low) > 2;
    let late = sheet.kind > 0 && beside(sheet.latest, high) < 2;
    let verdict = match (sheet.kind, timed.met) {
        (0, _) => usize::from(infinite),
        (1, true) => 2,
        (1, false) => 3 + usize::from(infinite),
        (_, true) if sheet.earliest == sheet.latest => 10,
        (_, true) => 5,
        (_, false) if low == INFINITE => 9,
        (_, false) => [6, 7, 8][usize::from(late) + usize::from(late && early)],
    };
    tally.add(VERDICT[verdict]);
}
