//! The lines that differ, in words, each with what it causes alone.

use crate::causes::{Alone, Changes, TRIED};
use crate::compare::Comparison;
use crate::compare_totals::Rows;
use crate::compare_versions::versions;
use crate::deadline_words::met;
use crate::paint::{Colour, Painted};
use crate::words::counted;

pub fn lines(comparison: &Comparison, out: &mut Painted) {
    let count = comparison.lines.len();
    let verb = if count == 1 { "differs" } else { "differ" };
    out.piece(format!("{} {verb}", counted(count, "line")), Some(Colour::Bold));
    out.line("");
    for (line, alone) in comparison.lines.iter().take(TRIED) {
        out.line("");
        versions(comparison.halves(), line, out);
        verdict(comparison, alone, out);
    }
    let notes = notes(comparison);
    if !notes.is_empty() {
        out.line("");
    }
    notes.into_iter().for_each(|note| out.line(note));
}

/// What is to be said of all lines together.
fn notes(comparison: &Comparison) -> Vec<String> {
    let count = comparison.lines.len();
    let causes_all = |alone: &Alone| matches!(alone, Alone::Changes(Changes { all: true, .. }));
    let verdicts_differ = comparison.one.met() != comparison.other.met();
    let totals_differ = Rows::of(comparison).is_some_and(|rows| rows.differ());
    let differ = !comparison.nodes.are_same() || totals_differ || verdicts_differ;
    let unexplained = differ && !comparison.lines.iter().any(|(_, alone)| causes_all(alone));
    let mut notes = vec![];
    if count > TRIED {
        notes.push(format!(
            "{} more differ; they are not tried, and --json lists more of them",
            count - TRIED
        ));
    }
    if unexplained && count > 1 {
        notes.push("no line that was tried causes all of it alone".into());
    }
    if has_facts(comparison) {
        notes.push(
            "what a line alone makes of the bounds with the facts, and of a verdict by them, is not worked out".into(),
        );
    }
    notes
}

fn has_facts(comparison: &Comparison) -> bool {
    comparison.halves().iter().any(|half| !half.known().facts.is_empty())
}

/// What a line causes that causes all: totals that one of the charts does not have cannot be compared.
fn whole(comparison: &Comparison) -> &'static str {
    match comparison.halves().map(|half| half.plain().is_ok()) {
        [true, false] | [false, true] => "all classes",
        _ => "all of it",
    }
}

/// What a line that causes all may not cause.
fn aside(comparison: &Comparison) -> &'static str {
    match has_facts(comparison) {
        true => ", bounds aside",
        false => "",
    }
}

/// What a line causes alone.
fn verdict(comparison: &Comparison, alone: &Alone, out: &mut Painted) {
    let (words, colour) = match alone {
        Alone::Changes(changes) => match effects(comparison, changes).as_slice() {
            [] if comparison.one.plain().is_err() => ("alone it changes no class".into(), None),
            [] if changes.met.is_some() => ("alone it changes no class, no total and no verdict".into(), None),
            [] => ("alone it changes no class and no total".into(), None),
            effects if changes.all => (
                format!(
                    "alone it causes {}{}: {}",
                    whole(comparison),
                    aside(comparison),
                    effects.join(", ")
                ),
                Some(Colour::Bold),
            ),
            effects => (format!("alone: {}", effects.join(", ")), None),
        },
        Alone::NoChart(why) => (format!("cannot be tried alone: {why}"), None),
        Alone::NotTried => ("not tried".into(), None),
    };
    out.piece(format!("    {words}"), colour);
    out.line("");
}

/// What is then otherwise than in the one chart.
fn effects(comparison: &Comparison, changes: &Changes) -> Vec<String> {
    let mut effects = vec![];
    if changes.nodes > 0 {
        effects.push(format!("other classes at {}", counted(changes.nodes, "node")));
    }
    match (comparison.one.plain(), &changes.totals) {
        (Ok(before), Ok(after)) => {
            let both = [("low", before.low, after.low), ("high", before.high, after.high)];
            let changed = both.iter().filter(|(_, before, after)| before != after);
            effects.extend(changed.map(|(name, before, after)| format!("{name} total {before} -> {after}")));
        }
        (Ok(_), Err(lack)) => effects.push(format!("no totals, since {}", lack.what)),
        (Err(_), Ok(after)) => effects.push(format!("low total {}, high total {}", after.low, after.high)),
        (Err(_), Err(_)) => {}
    }
    if let (Some(before), Some(after)) = (comparison.one.met(), changes.met) {
        if before != after {
            effects.push(format!("verdict {} -> {}", met(before), met(after)));
        }
    }
    effects
}
