//! The facts of a chart on a page, and what the high bound rests on.

use crate::bounded::Bounded;
use crate::findings::Findings;
use crate::known::Text;
use crate::markup::escaped;
use crate::totals::Totals;
use crate::weights::{Weight, Worth};
use crate::weights_table::text;

/// Nothing where a text has none.
pub fn facts(totals: &Totals) -> String {
    let (Some(bounded), Some(said)) = (&totals.bounded, &totals.findings.known.text) else {
        return String::new();
    };
    format!(
        "<p>The facts, which the bounds take for true; the shares below are of the totals, without them:</p>\n<ul>\n{}</ul>\n{}",
        lines(totals.findings, said),
        rests(totals.findings, bounded)
    )
}

/// The lines of facts, as the text has them.
fn lines(findings: &Findings, said: &Text) -> String {
    let facts = findings.known.facts.iter();
    facts
        .map(|fact| format!("<li><code>{}</code></li>\n", escaped(&said.source.words(fact.span))))
        .collect()
}

/// What the high bound rests on, each with how much higher it is without it.
fn rests(findings: &Findings, bounded: &Bounded) -> String {
    let row = |weight: &Weight| {
        let worth = match weight.worth {
            None => "not asked".into(),
            Some(Worth::All) => "no bound without it".into(),
            Some(Worth::By(more)) => more.to_string(),
        };
        let text = escaped(&text(findings.known, weight));
        format!("<tr><td><code>{text}</code></td><td class=\"number\">{worth}</td></tr>\n")
    };
    let rows: String = bounded.weights.iter().map(row).collect();
    match rows.is_empty() {
        true => rows,
        false => format!(
            "<table class=\"small\">\n<thead><tr><th>the high bound rests on</th><th class=\"number\">higher without it by</th></tr></thead>\n\
             <tbody>\n{rows}</tbody></table>\n"
        ),
    }
}
