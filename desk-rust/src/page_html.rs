//! The page as a whole: one file of HTML that needs nothing beside it, no network and no script.

use crate::bounded::said;
use crate::cache::Cache;
use crate::due::Due;
use crate::findings::Findings;
use crate::known::Known;
use crate::lack::Lack;
use crate::markup::escaped;
use crate::page_assured::assured;
use crate::page_due::{figures, verdict};
use crate::page_nodes::{counts, nodes};
use crate::page_picture::drawn;
use crate::page_sets::sets;
use crate::page_totals::{costs, soft};
use crate::totals::Totals;
use crate::trouble::Trouble;

const STYLE: &str = include_str!("page.css");

/// What there is to tell, or what is missing for it.
pub type Told<T> = Result<T, Lack>;

/// The page of a chart. What cannot be told of it is said on the page; what is refused is refused here too.
pub fn html(findings: &Findings, hit: Option<u16>, miss: Option<u16>) -> Result<String, Trouble> {
    let said = said(findings);
    let totals = told(findings.known, Totals::of(findings, said.as_deref(), hit, miss))?;
    let due = told(findings.known, Due::of(findings, hit, miss))?;
    let file = escaped(&findings.known.file);
    let cache = escaped(&Cache::of(&findings.known.header).words());
    let sections = [
        section("picture", "The chart", &drawn(findings)),
        section("nodes", "What each step does to the cache", &nodes(findings)),
        section("sets", "The map of sets", &sets(findings)),
        section("costs", "What it costs, in cycles", &or_missing(&totals, costs)),
        section("due", "The deadline", &or_missing(&due, figures)),
        section(
            "assured",
            "What is proved, and what is assumed",
            &assured(findings, &totals, &due),
        ),
    ];
    Ok(format!(
        "<!DOCTYPE html>\n<html lang=\"en\">\n<head>\n<meta charset=\"utf-8\"/>\n\
         <meta name=\"viewport\" content=\"width=device-width, initial-scale=1\"/>\n\
         <title>{file}</title>\n<style>\n{STYLE}</style>\n</head>\n<body>\n<main>\n\
         <h1>{file}</h1>\n<p>The cache: {cache}.</p>\n{}{}{}{}</main>\n</body>\n</html>\n",
        at_the_call(hit, miss),
        verdict(&due),
        counts(findings),
        sections.concat(),
    ))
}

/// That costs are not those of the text.
fn at_the_call(hit: Option<u16>, miss: Option<u16>) -> String {
    let costs = [("a hit", hit), ("a miss", miss)];
    let given: Vec<String> = costs
        .iter()
        .filter_map(|(of, cost)| Some(format!("{} for {of}", (*cost)?)))
        .collect();
    match given.is_empty() {
        true => String::new(),
        false => format!(
            "<p><b>Costs were given at the call</b>, and go before those of the text: {}.</p>\n",
            given.join(" and ")
        ),
    }
}

/// Something that is missing is told on the page; any other trouble is one of the whole.
fn told<T>(known: &Known, found: Result<T, Trouble>) -> Result<Told<T>, Trouble> {
    match found {
        Ok(found) => Ok(Ok(found)),
        Err(missing @ Trouble::Unanswered { .. }) => Ok(Err(Lack::of(known, &missing))),
        Err(trouble) => Err(trouble),
    }
}

fn section(id: &str, heading: &str, inside: &str) -> String {
    format!("<section id=\"{id}\">\n<h2>{heading}</h2>\n{inside}</section>\n")
}

/// What is told of something, or that it is missing.
fn or_missing<T>(told: &Told<T>, tell: fn(&T) -> String) -> String {
    match told {
        Ok(found) => tell(found),
        Err(lack) => soft(&lack.words()),
    }
}
