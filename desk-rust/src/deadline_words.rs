//! The verdict on a deadline, in words.

use crate::cache::write_heading;
use crate::counted::{By, Counted};
use crate::due::Due;
use crate::known::Limits;
use crate::paint::{Colour, Painted};
use crate::table::{Side, Table};
use crate::time::{column, figure, microseconds, Time};

pub fn words(due: &Due) -> Painted {
    let mut out = Painted::default();
    write_heading(due.findings.known, &mut out);
    out.line(clock(due));
    out.line("");
    figures(due, &mut out);
    out.line("");
    for sentence in &due.sentences {
        out.line(sentence.as_str());
    }
    let (verdict, colour) = verdict(due);
    out.piece(verdict, Some(colour));
    out.line(format!(": {}", reason(due)));
    for sentence in beside(due) {
        out.line(sentence);
    }
    out
}

/// `MET` or `NOT MET`, and its colour.
pub fn verdict(due: &Due) -> (&'static str, Colour) {
    let colour = if due.met() { Colour::Green } else { Colour::Red };
    (met(due.met()), colour)
}

/// A verdict in a word or two.
pub fn met(met: bool) -> &'static str {
    match met {
        true => "MET",
        false => "NOT MET",
    }
}

fn us(time: Time) -> String {
    microseconds(time.femtoseconds())
}

/// What a hit, a miss and a cycle take, and what is added.
pub fn clock(due: &Due) -> String {
    let given = if due.at_the_call { ", as the call says," } else { "" };
    format!(
        "a hit takes {} and a miss {} cycles{given} of {} us, and {} us are added once",
        due.costs.hit,
        due.costs.miss,
        us(due.clock.period),
        us(due.clock.overhead)
    )
}

/// A deadline, as `latest 120 us` and `from 10 to 120 us`.
pub fn limits(limits: &Limits) -> String {
    match limits.earliest {
        None => format!("latest {} us", us(limits.latest)),
        Some(earliest) => format!("from {} to {} us", us(earliest), us(limits.latest)),
    }
}

/// Where a figure comes from, as `high bound`.
pub fn name(side: &str, counted: &Counted) -> String {
    match counted.by {
        By::Total => format!("{side} total"),
        By::Bound => format!("{side} bound"),
    }
}

/// Each total and each bound, in cycles and in microseconds. Bounds stand below totals.
pub fn rows(due: &Due) -> Vec<(String, u64, u128)> {
    let counted = [("low", &due.low), ("high", &due.high)];
    let totals = due.totals.iter().flat_map(|totals| {
        [("low total", totals.low), ("high total", totals.high)].map(|(name, cycles)| {
            let figure = figure(cycles, due.clock.period, due.clock.overhead);
            (name.to_string(), cycles, figure)
        })
    });
    let others = counted.iter().filter(|(_, counted)| counted.by != By::Total);
    let others = others.map(|(side, counted)| (name(side, counted), counted.cycles, counted.figure));
    totals.chain(others).collect()
}

fn figures(due: &Due, out: &mut Painted) {
    let rows = rows(due);
    let figures = column(&rows.iter().map(|(_, _, figure)| *figure).collect::<Vec<_>>());
    let mut table = Table::new([("", Side::Left), ("cycles", Side::Right), ("us", Side::Right)]);
    for ((name, cycles, _), figure) in rows.into_iter().zip(figures) {
        table.row([name.into(), cycles.to_string().into(), figure.into()]);
    }
    table.write(0, out);
}

/// Why the verdict is what it is.
pub fn reason(due: &Due) -> String {
    let (low, high) = (microseconds(due.low.figure), microseconds(due.high.figure));
    let limits = limits(&due.limits);
    let [low_name, high_name] = [name("low", &due.low), name("high", &due.high)];
    let late = due
        .late()
        .map(|late| format!("the {high_name} comes to {high} us, {} us too late", microseconds(late)));
    let early = due
        .early()
        .map(|early| format!("the {low_name} comes to {low} us, {} us too early", microseconds(early)));
    match (early, late) {
        (Some(early), Some(late)) => format!("{limits}; {early}, and {late}"),
        (Some(one), None) | (None, Some(one)) => format!("{limits}; {one}"),
        (None, None) if !due.met() => {
            format!(
                "{limits}; the {high_name} comes to {high} us, which is in time exactly, and not once it is rounded"
            )
        }
        (None, None) => {
            let spare = due.limits.latest.femtoseconds() - due.high.figure;
            let spare = match spare {
                0 => "just in time".to_string(),
                spare => format!("{} us before it", microseconds(spare)),
            };
            format!("{limits}; the {high_name} comes to {high} us, {spare}")
        }
    }
}

/// What else is worth a sentence: that all walks are late, and where rounding has a say.
pub fn beside(due: &Due) -> Vec<String> {
    let mut sentences = vec![];
    if let Some(late) = due.always_late() {
        let walks = match due.low.by {
            By::Bound => "that keeps the facts",
            By::Total => "with these visits",
        };
        sentences.push(format!(
            "Even the {} is {} us too late: no walk {walks} is in time.",
            name("low", &due.low),
            microseconds(late)
        ));
    }
    if due.rounding_decides() {
        sentences.push(format!(
            "Here rounding decides: exactly it is {}, and for the proved function, which rounds to binary64, {}. So it does not count as met: give \
             the deadline a little more room.",
            met(due.exactly_met()),
            met(!due.exactly_met())
        ));
    }
    sentences
}
