//! The table of the facts that a high bound rests on, with what each is worth.

use crate::bounded::Bounded;
use crate::known::{Known, Text};
use crate::number::told;
use crate::paint::{Colour, Painted};
use crate::table::{Cell, Side, Table};
use crate::totals::Totals;
use crate::weights::{Weight, Worth};
use crate::words::counted;
use veilbuzz::Costs;

/// Writes the table, and how many carry no weight. The multipliers are over this denominator.
pub fn weights(totals: &Totals, bounded: &Bounded, denominator: u64, out: &mut Painted) {
    let mut table = Table::new([
        ("line", Side::Left),
        ("the high bound rests on", Side::Left),
        ("per unit", Side::Right),
        ("worth", Side::Right),
        ("", Side::Left),
    ]);
    for weight in &bounded.weights {
        let (worth, note) = worth(weight.worth, totals.costs);
        table.row([
            line(totals.findings.known, weight).to_string().into(),
            text(totals.findings.known, weight).into(),
            per_unit(weight, denominator).into(),
            worth,
            note,
        ]);
    }
    if !bounded.weights.is_empty() {
        table.write(0, out);
        out.line("");
        out.line("per unit: what the certificate adds to loosen it by one; worth: how much higher the high bound is without it");
    }
    let others = counted(bounded.without_weight, "fact");
    out.line(format!("no weight in the high bound: {others}"));
}

/// The line of the text that says it, counted from 1.
pub fn line(known: &Known, weight: &Weight) -> usize {
    let place = |text: &Text| text.source.place(weight.saying.span.start).line;
    known.text.as_ref().map_or(0, place)
}

/// As the text says it; visits with the name of their node.
pub fn text(known: &Known, weight: &Weight) -> String {
    let words = |text: &Text| text.source.words(weight.saying.span);
    let words = known.text.as_ref().map(words).unwrap_or_default();
    match weight.saying.visits_of {
        Some(node) => format!("{}: {words}", told(&known.nodes[node].name)),
        None => words,
    }
}

/// What it adds to loosen it by one, as a whole number or a fraction. A least and a most that are the same are loosened where that counts.
fn per_unit(weight: &Weight, denominator: u64) -> String {
    let adds = weight.at_most.max(weight.at_least) as u64;
    let (mut divisor, mut rest) = (denominator, adds);
    while rest != 0 {
        (divisor, rest) = (rest, divisor % rest);
    }
    match denominator / divisor {
        1 => format!("{}", adds / divisor),
        below => format!("{}/{below}", adds / divisor),
    }
}

/// What it is worth, and the same in other words.
fn worth(worth: Option<Worth>, costs: Costs) -> (Cell, Cell) {
    match worth {
        None => ("".into(), "not asked".into()),
        Some(Worth::All) => ("".into(), Cell::coloured("no bound without it", Some(Colour::Yellow))),
        Some(Worth::By(0)) => ("0".into(), "the others give the same bound".into()),
        Some(Worth::By(more)) => (
            more.to_string().into(),
            match misses(more, costs) {
                None => "".into(),
                Some(1) => "1 miss in place of a hit".into(),
                Some(misses) => format!("{misses} misses in place of hits").into(),
            },
        ),
    }
}

/// So many misses in place of hits cost so much more, if that is a whole number.
pub fn misses(more: u64, Costs { hit, miss }: Costs) -> Option<u64> {
    let difference = u64::from(miss.saturating_sub(hit));
    more.checked_rem(difference)
        .filter(|rest| *rest == 0)
        .map(|_| more / difference)
}
