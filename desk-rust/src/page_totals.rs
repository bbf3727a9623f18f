//! What a chart costs, on a page: the two totals, the bounds by facts, and the shares.

use crate::bounded::Bounded;
use crate::facts_words::sentences;
use crate::given::without_visits;
use crate::markup::escaped;
use crate::page_facts::facts;
use crate::page_shares::shares;
use crate::totals::{Plain, Totals};

pub fn costs(totals: &Totals) -> String {
    let (plain, bounded) = (totals.plain.as_ref(), totals.bounded.as_ref());
    let rows = plain.map_or(String::new(), visits) + &bounded.map_or(String::new(), bounds);
    let missing: String = bounded
        .into_iter()
        .flat_map(sentences)
        .map(|sentence| soft(&sentence))
        .collect();
    let shares = match plain {
        Some(plain) => shares(totals.findings, plain),
        None => soft(&format!(
            "no totals without the facts: the visits of {} are not said",
            without_visits(totals.findings.known)
        )),
    };
    format!(
        "<p>A hit costs {}, a miss {}.</p>\n<table class=\"small\">\n\
         <thead><tr><th></th><th class=\"number\">low</th><th class=\"number\">high</th></tr></thead>\n\
         <tbody>\n{rows}</tbody></table>\n{}{missing}{shares}",
        totals.costs.hit,
        totals.costs.miss,
        facts(totals)
    )
}

fn visits(plain: &Plain) -> String {
    row(
        "totals: what a walk with these visits costs at least, and at most",
        [Some(plain.totals.low), Some(plain.totals.high)],
    )
}

fn bounds(bounded: &Bounded) -> String {
    row(
        "bounds: what it costs if it keeps the facts too",
        [&bounded.low, &bounded.high].map(|side| side.as_ref().ok().map(|side| side.bound)),
    )
}

fn row(name: &str, sides: [Option<u64>; 2]) -> String {
    let [low, high] = sides.map(|cost| cost.map_or("none".into(), |cost| cost.to_string()));
    format!("<tr><td>{name}</td><td class=\"number\"><b>{low}</b></td><td class=\"number\"><b>{high}</b></td></tr>\n")
}

/// A sentence beside the matter.
pub fn soft(sentence: &str) -> String {
    format!("<p class=\"soft\">{}.</p>\n", escaped(sentence))
}
