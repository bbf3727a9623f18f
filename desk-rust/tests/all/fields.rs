//! The page names every field of every answer that scripts get.

use crate::json::{read, Json};
use crate::place::Place;
use reports::tree::text;
use std::collections::BTreeSet;

/// Calls whose answers have all fields that there are.
const CALLS: [&str; 22] = [
    "report charts/straddle.txt",
    "report charts/class-unreached.txt",
    "totals charts/loop.txt",
    "totals charts/branch.txt",
    "why charts/loop.txt turn",
    "why charts/winch-as-built.txt depth",
    "compare charts/winch-as-built.txt charts/winch-swapped.txt",
    "compare charts/loop.chart charts/branch.txt",
    "compare charts/winch-as-built.txt charts/winch-facts.txt",
    "deadline charts/winch-facts.txt",
    "deadline desk-rust/tests/golden/texts/due-early-and-late.txt",
    "draw charts/loop.txt -o loop.svg",
    "page charts/loop.txt -o loop.html",
    "chart charts/loop.txt -o loop.chart",
    "text charts/loop.chart",
    "new",
    "refusal",
    "refusal 9",
    "report charts/refused-cut-short.txt",
    "report charts/refused-cut-short.chart",
    "totals charts/loop.chart",
    "report",
];

/// The names of all fields of a value.
fn fields(json: &Json, names: &mut BTreeSet<String>) {
    match json {
        Json::List(values) => values.iter().for_each(|value| fields(value, names)),
        Json::Object(all) => {
            for (name, value) in all {
                names.insert(name.clone());
                fields(value, names);
            }
        }
        _ => {}
    }
}

#[test]
fn the_page_names_each_field_of_each_answer() {
    let page = text("docs/DESK.md");
    let place = Place::new("fields");
    let mut names = BTreeSet::new();
    for call in CALLS {
        fields(&read(&place.run(&format!("./desk {call} --json")).out), &mut names);
    }
    assert!(names.len() >= 50, "only {} fields", names.len());
    let unnamed: Vec<&String> = names
        .iter()
        .filter(|name| !page.contains(&format!("`{name}`")))
        .collect();
    assert!(unnamed.is_empty(), "docs/DESK.md does not name {unnamed:?}");
}
