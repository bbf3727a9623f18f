//! The codes by which a script tells faults apart: each that the sources have is met by a test, and told on the page.

use crate::golden;
use crate::json::read;
use crate::trying::{chain, known, trouble};
use desk::args::asked;
use desk::deadline::deadline;
use desk::fact::FACTS;
use desk::input::input;
use desk::totals::totals;
use desk::trouble::Trouble;
use reports::pages::cells;
use reports::tree::{text, texts};
use std::collections::BTreeSet;
use std::fs;
use veilbuzz::NODES;

/// What stands before a code in the sources, space left out.
const BEFORE: [&str; 4] = ["code:", "problem(", "not_whole(", "(\"code\","];

/// The codes of a source: what stands in quotation marks behind one of these.
fn codes(source: &str) -> Vec<String> {
    let marks: Vec<usize> = source.match_indices('"').map(|(at, _)| at).collect();
    let pieces = marks
        .windows(2)
        .map(|ends| (&source[..ends[0]], &source[ends[0] + 1..ends[1]]));
    let behind = |before: &str| BEFORE.iter().any(|end| before.trim_end().ends_with(end));
    pieces
        .filter(|(before, _)| behind(before))
        .map(|(_, piece)| piece.to_string())
        .collect()
}

fn of_the_sources() -> BTreeSet<String> {
    let sources = texts("desk-rust/src");
    sources.iter().flat_map(|(_, source)| codes(source)).collect()
}

/// The codes of a trouble.
fn told(trouble: &Trouble) -> Vec<String> {
    let json = read(&trouble.json().to_string());
    let errors = json.at("errors").list();
    errors.iter().map(|error| error.at("code").text().to_string()).collect()
}

/// What is not answered, of every kind: golden texts, a node too many, what totals and deadlines refuse, a chart of bytes, a wrong call, no file.
fn troubles() -> Vec<Trouble> {
    let bytes = |folder: &str, name: &str| {
        let file = golden::folder(folder).join(format!("{name}.txt"));
        fs::read(file).unwrap_or_else(|error| panic!("{name}: {error}"))
    };
    let faults = golden::names(&golden::folder("faults"), ".txt");
    let mut troubles: Vec<Trouble> = faults.iter().map(|name| trouble(&bytes("faults", name))).collect();
    for name in [
        "miss-below-hit",
        "least-above-most",
        "unreached-with-visits",
        "no-visits",
    ] {
        troubles.extend(totals(&known(&bytes("texts", name)), None, None).err());
    }
    troubles.extend(deadline(&known(&bytes("texts", "due-period-of-0")), None, None).err());
    troubles.extend([chain(NODES + 1).as_bytes(), &[1]].map(trouble));
    troubles.push(trouble((chain(1) + &"fact n0 <= 1\n".repeat(FACTS + 1)).as_bytes()));
    troubles.extend(asked(vec!["nonsense".into()]).err());
    troubles.extend(input("no/such/file".as_ref()).err());
    troubles
}

#[test]
fn each_code_of_the_sources_is_met_and_no_other() {
    let met: BTreeSet<String> = troubles().iter().flat_map(told).collect();
    assert_eq!(met, of_the_sources());
}

#[test]
fn the_page_has_a_row_for_each_code_and_for_no_other() {
    let page = text("docs/DESK.md");
    let tables = page.split("\n\n");
    let table = tables.into_iter().find(|table| table.contains("\n| `unexpected` |"));
    let rows = table.expect("there is a table of codes").lines().filter_map(cells);
    let told: BTreeSet<String> = rows
        .filter_map(|row| Some(row[0].strip_prefix('`')?.strip_suffix('`')?.to_string()))
        .collect();
    assert_eq!(told, of_the_sources());
}
