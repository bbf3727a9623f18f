//! Two charts side by side, for scripts.

use crate::cache::Cache;
use crate::causes::Alone;
use crate::compare::{Comparison, Half};
use crate::facts_json::side;
use crate::json::{list, object, Value};
use crate::lack::Lack;
use crate::source::Source;
use crate::statements::Statement;
use crate::totals_json::{both, costs};
use veilbuzz::{Class, TOUCHES};

/// So many lines are listed: a text that is not made to be long has fewer.
const LISTED: usize = 4_096;

pub fn json(comparison: &Comparison) -> Value {
    let [one, other] = comparison.halves();
    let nodes = &comparison.nodes;
    let classes = |[here, there]: &[usize; 2]| {
        object([
            ("name", one.findings.name(*here).into()),
            ("one", words(one.classed().classes[*here])),
            ("other", words(other.classed().classes[*there])),
        ])
    };
    let lines = comparison.lines.iter().take(LISTED).map(|(line, alone)| {
        object([
            ("one", line.one.map(|statement| version(&one.source, statement)).into()),
            (
                "other",
                line.other.map(|statement| version(&other.source, statement)).into(),
            ),
            ("alone", tried(alone)),
        ])
    });
    object([
        ("one", half(one)),
        ("other", half(other)),
        ("classes", list(nodes.differ.iter().map(classes))),
        ("same", nodes.same.into()),
        ("only_in_one", names(one, &nodes.only_in_one)),
        ("only_in_other", names(other, &nodes.only_in_other)),
        ("lines", list(lines)),
        ("more_lines", comparison.lines.len().saturating_sub(LISTED).into()),
    ])
}

fn half(half: &Half) -> Value {
    let totals = half.totals.as_ref().ok();
    let bounded = totals.and_then(|totals| totals.bounded.as_ref());
    let bounds = bounded.map(|bounded| object([("low", side(&bounded.low)), ("high", side(&bounded.high))]));
    let plain = half.plain();
    object([
        ("file", half.known().file.as_str().into()),
        ("cache", Cache::of(&half.known().header).json()),
        ("from_bytes", half.is_of_bytes().into()),
        ("costs", totals.map(|totals| costs(totals.costs)).into()),
        ("totals", plain.as_ref().ok().copied().map(both).into()),
        ("no_totals", plain.as_ref().err().map(lack).into()),
        ("bounds", bounds.into()),
        ("met", half.met().into()),
    ])
}

fn lack(Lack { what, mend }: &Lack) -> Value {
    object([("what", what.as_str().into()), ("mend", mend.as_deref().into())])
}

fn words(classes: [Class; TOUCHES]) -> Value {
    list(classes.map(|class| class.to_string()))
}

fn names(half: &Half, nodes: &[usize]) -> Value {
    list(nodes.iter().map(|node| half.findings.name(*node)))
}

fn version(source: &Source, statement: &Statement) -> Value {
    object([
        ("line", statement.line.into()),
        ("text", source.words(statement.span).into()),
    ])
}

fn tried(alone: &Alone) -> Value {
    let changes = match alone {
        Alone::Changes(changes) => Some(changes),
        _ => None,
    };
    let totals = changes.map(|changes| changes.totals.as_ref());
    let (why_not, what) = match alone {
        Alone::Changes(_) => (None, None),
        Alone::NoChart(what) => (Some("no-chart"), Some(what.as_str())),
        Alone::NotTried => (Some("not-tried"), None),
    };
    object([
        ("classes", changes.map(|changes| changes.nodes).into()),
        ("totals", totals.and_then(Result::ok).copied().map(both).into()),
        ("no_totals", totals.and_then(Result::err).map(lack).into()),
        ("met", changes.and_then(|changes| changes.met).into()),
        ("all", changes.is_some_and(|changes| changes.all).into()),
        ("why_not", why_not.into()),
        ("what", what.into()),
    ])
}
