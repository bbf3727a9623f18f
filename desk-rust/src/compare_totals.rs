//! The totals of two charts side by side, and the bounds that facts give.

use crate::compare::{Comparison, Half};
use crate::compare_words::LETTERS;
use crate::deadline_words::{reason, verdict};
use crate::facts_words::sentences;
use crate::paint::Painted;
use crate::table::{Side, Table};
use crate::totals::Totals;
use crate::totals_words::costs;
use std::cmp::Ordering;

/// Each total and each bound, in the one chart and in the other.
pub struct Rows([(&'static str, [Option<u64>; 2]); 4]);

impl Rows {
    /// Nothing where one of the two has no totals at all.
    pub fn of(comparison: &Comparison) -> Option<Rows> {
        let [one, other] = comparison.halves().map(|half| half.totals.as_ref().ok());
        let both = [one?, other?];
        let plain = |pick: fn(&veilbuzz::Totals) -> u64| {
            both.map(|totals| totals.plain.as_ref().map(|plain| pick(&plain.totals)))
        };
        Some(Rows([
            ("low total", plain(|totals| totals.low)),
            ("high total", plain(|totals| totals.high)),
            ("low bound", both.map(low_bound)),
            ("high bound", both.map(high_bound)),
        ]))
    }

    pub fn differ(&self) -> bool {
        self.0.iter().any(|(_, [one, other])| one != other)
    }
}

fn low_bound(totals: &Totals) -> Option<u64> {
    Some(totals.bounded.as_ref()?.low.as_ref().ok()?.bound)
}

fn high_bound(totals: &Totals) -> Option<u64> {
    Some(totals.bounded.as_ref()?.high.as_ref().ok()?.bound)
}

pub fn totals(comparison: &Comparison, out: &mut Painted) {
    lacks(comparison, out);
    let ([Ok(one), Ok(other)], Some(rows)) = (
        comparison.halves().map(|half| half.totals.as_ref()),
        Rows::of(comparison),
    ) else {
        return;
    };
    each_or_both([one, other].map(|totals| vec![costs(totals.costs)]), out);
    out.line("");
    let [a, b] = LETTERS.map(|letter| (letter, Side::Right));
    let mut table = Table::new([("", Side::Left), a, b, ("B is", Side::Right)]);
    for (name, both) in rows.0.into_iter().filter(|(_, both)| both.iter().any(Option::is_some)) {
        let [here, there] = both.map(|value| value.map_or("none".into(), |value| value.to_string()));
        table.row([name.into(), here.into(), there.into(), against(both).into()]);
    }
    table.write(0, out);
    let unbounded = [one, other].map(|totals| totals.bounded.as_ref().map_or(vec![], sentences));
    if unbounded.iter().any(|sentences| !sentences.is_empty()) {
        out.line("");
        each_or_both(unbounded, out);
    }
}

/// The verdicts on both deadlines, where one of the two has one.
pub fn verdicts(comparison: &Comparison, out: &mut Painted) {
    let told = |half: &Half| match &half.due {
        Some(due) => vec![format!("{}: {}", verdict(due).0, reason(due))],
        None => vec!["no verdict on a deadline".into()],
    };
    let halves = comparison.halves();
    if halves.iter().any(|half| half.due.is_some()) {
        out.line("");
        each_or_both(halves.map(told), out);
    }
}

/// Why there are no totals of one chart, or of both.
fn lacks(comparison: &Comparison, out: &mut Painted) {
    let lacks = comparison.halves().map(|half| half.plain().err());
    let of_both = match &lacks {
        [Some(one), Some(other)] if one == other => Some(("A or B", one)),
        _ => None,
    };
    let of_each = LETTERS
        .into_iter()
        .zip(&lacks)
        .filter_map(|(letter, lack)| Some((letter, lack.as_ref()?)));
    let of_each = of_each.filter(|_| of_both.is_none());
    for (of, lack) in of_both.into_iter().chain(of_each) {
        out.line(format!("no totals of {of}: {}", lack.what));
        lack.mend.iter().for_each(|mend| out.line(format!("    {mend}")));
    }
}

/// Sentences of each chart under its letter, or once if they are of both.
fn each_or_both([one, other]: [Vec<String>; 2], out: &mut Painted) {
    if one == other {
        one.into_iter().for_each(|sentence| out.line(sentence));
        return;
    }
    for (letter, sentences) in LETTERS.iter().zip([one, other]) {
        sentences
            .into_iter()
            .for_each(|sentence| out.line(format!("{letter}: {sentence}")));
    }
}

/// How the other's value is against the one's.
fn against([one, other]: [Option<u64>; 2]) -> String {
    let (Some(one), Some(other)) = (one, other) else {
        return String::new();
    };
    let apart = one.abs_diff(other);
    match other.cmp(&one) {
        Ordering::Equal => "the same".into(),
        Ordering::Less => format!("{apart} less"),
        Ordering::Greater => format!("{apart} more"),
    }
}
