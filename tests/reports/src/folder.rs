//! The files of the folder charts/.

use crate::program::file;
use std::fs;

/// The names of the files that end so, without that end, in order.
pub fn names(end: &str) -> Vec<String> {
    let mut names: Vec<String> = fs::read_dir(file("charts"))
        .expect("the folder charts/ is there")
        .map(|entry| entry.expect("it can be listed").file_name())
        .map(|name| name.into_string().expect("its names are ASCII"))
        .filter_map(|name| name.strip_suffix(end).map(String::from))
        .collect();
    names.sort();
    names
}

/// The bytes of a chart.
pub fn chart(name: &str) -> Vec<u8> {
    fs::read(file("charts").join(format!("{name}.chart"))).expect("the chart can be read")
}

/// The text of a file, named from there.
pub fn text(name: &str) -> String {
    fs::read_to_string(file("charts").join(name)).expect("the text can be read")
}

/// The report of a chart, as it is stored.
pub fn report(name: &str) -> String {
    text(&format!("{name}.report"))
}

/// What a report says of each node in turn, or a refusal's one line. The word of a second touch is left out where there is none.
pub fn words(report: &str) -> Vec<&str> {
    let mut lines = report.lines();
    let first = lines.next().expect("a report has a line");
    if first.starts_with("refused") {
        return vec![first];
    }
    lines
        .map(|line| line.split_once(' ').expect("a node has words").1)
        .map(|words| match words.split_once(' ').expect("a node has two words") {
            (first, "none" | "unreached") => first,
            _ => words,
        })
        .collect()
}

/// The cells of each table row of charts/README.md whose first cell passes.
pub fn rows(first: impl Fn(&str) -> bool) -> Vec<Vec<String>> {
    let cells = |line: &str| -> Option<Vec<String>> {
        let inner = line.strip_prefix("| ")?.strip_suffix(" |")?;
        Some(inner.split(" | ").map(String::from).collect())
    };
    let readme = text("README.md");
    readme.lines().filter_map(cells).filter(|row| first(&row[0])).collect()
}
