//! The totals in words: low and high, and what the visits say that no walk does.

use crate::cache::write_heading;
use crate::facts_words::facts;
use crate::given::without_visits;
use crate::known::Known;
use crate::paint::Painted;
use crate::table::{Side, Table};
use crate::totals::{Plain, Totals};
use crate::totals_table::shares;
use veilbuzz::Costs;

pub fn words(totals: &Totals) -> Painted {
    let mut out = Painted::default();
    write_heading(totals.findings.known, &mut out);
    out.line(costs(totals.costs));
    out.line("");
    match &totals.plain {
        Some(both) => plain(totals, both, &mut out),
        None => out.line(format!(
            "no totals without the facts: {}",
            visits_not_said(totals.findings.known)
        )),
    }
    if !totals.never_again.is_empty() {
        never_again(totals, &mut out);
    }
    if let Some(bounded) = &totals.bounded {
        facts(totals, bounded, &mut out);
    }
    out
}

pub fn costs(Costs { hit, miss }: Costs) -> String {
    format!("a hit costs {hit}, a miss {miss}")
}

/// Why there are no totals where there can be bounds.
pub fn visits_not_said(known: &Known) -> String {
    format!("the visits of {} are not said", without_visits(known))
}

fn plain(totals: &Totals, plain: &Plain, out: &mut Painted) {
    let mut both = Table::new([("", Side::Left), ("", Side::Right)]);
    both.row(["low total".into(), plain.totals.low.to_string().into()]);
    both.row(["high total".into(), plain.totals.high.to_string().into()]);
    both.write(0, out);
    out.line("");
    shares(totals.findings, plain).write(0, out);
}

/// That some visits are more than any one walk makes.
fn never_again(totals: &Totals, out: &mut Painted) {
    let names = totals.findings.names(&totals.never_again, "and");
    out.line("");
    out.line(format!(
        "No walk comes twice to {names}, and the visits say more: is an arrow back missing, or is this a part of a chart?"
    ));
    if totals.plain.as_ref().is_some_and(|plain| !plain.loads.is_empty()) {
        out.line(
            "In a part, a first load counts each time that a run comes to the part: './desk refusal 5' tells how.",
        );
    }
}
