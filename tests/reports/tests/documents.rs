//! What the documents list is what there is.

use reports::program::file;
use std::collections::BTreeSet;
use std::fs;

fn text(name: &str) -> String {
    fs::read_to_string(file(name)).unwrap_or_else(|error| panic!("{name}: {error}"))
}

/// The crates that crates.txt lists. What stands between a name and its colon, as `staticlib`, says what is made of the crate.
fn crates() -> Vec<String> {
    let lines = text("crates.txt");
    let listed = lines.lines().filter(|line| !line.starts_with('#'));
    listed
        .filter_map(|line| line.split_once(':')?.0.split(' ').next().map(str::to_string))
        .collect()
}

/// The must-fail edits of a crate, as CRATE/EDIT.
fn edits_of(name: &str) -> Vec<String> {
    let Ok(folder) = fs::read_dir(file("crates").join(name).join("must-fail")) else {
        return vec![];
    };
    folder
        .map(|entry| {
            entry
                .expect("the folder can be read")
                .file_name()
                .into_string()
                .expect("a name in ASCII")
        })
        .filter_map(|edit| edit.strip_suffix(".edit").map(|edit| format!("{name}/{edit}")))
        .collect()
}

#[test]
fn the_page_of_must_fail_edits_has_each_edit_and_no_other() {
    let page = text("docs/MUST-FAIL.md");
    let told: BTreeSet<String> = page
        .lines()
        .filter_map(|line| line.strip_prefix("| `")?.split_once('`'))
        .map(|(edit, _)| edit.to_string())
        .collect();
    let there: BTreeSet<String> = crates().iter().flat_map(|name| edits_of(name)).collect();
    assert!(there.len() >= 40, "only {} edits", there.len());
    assert_eq!(told, there);
}

/// Holds the README to a block of these lines.
fn shows(lines: &str) {
    let set_in = lines
        .lines()
        .map(|line| format!("    {line}\n").replace("    \n", "\n"));
    let block = format!("\n\n{}\n", set_in.collect::<String>());
    assert!(
        text("README.md").contains(&block),
        "README.md does not show these lines:{block}"
    );
}

#[test]
fn the_readme_shows_what_the_examples_of_a_deadline_and_a_bound_print() {
    for printed in ["examples/deadline.stdout", "examples/bound.stdout"] {
        shows(&text(printed));
    }
}

#[test]
fn the_readme_shows_the_short_way_in_rust() {
    let example = text("wrapper/examples/short.rs");
    let (_, source) = example.split_once("\n\n").expect("a head, and then the source");
    shows(source);
}

#[test]
fn the_readme_shows_how_the_examples_in_c_tell_a_refusal() {
    for example in ["bound", "deadline", "loop", "make"] {
        let source = text(&format!("examples/{example}.c"));
        let parts: Vec<&str> = source.split("\n\n").collect();
        let telling: Vec<&&str> = parts.iter().filter(|part| part.contains("veilbuzz_refusal_")).collect();
        assert_eq!(telling.len(), 1, "examples/{example}.c tells a refusal in one place");
        shows(telling[0]);
    }
}

#[test]
fn the_picture_of_a_deadline_has_the_figures_of_the_example() {
    let (printed, picture) = (text("examples/deadline.stdout"), text("docs/deadline.svg"));
    let figures: Vec<String> = printed
        .lines()
        .filter_map(|line| line.split_once(": ")?.1.split_once(" us, "))
        .map(|(figures, _)| format!(">{figures} µs<"))
        .collect();
    assert_eq!(figures.len(), 2);
    for figure in figures {
        assert!(picture.contains(&figure), "docs/deadline.svg has no {figure}");
    }
}

#[test]
fn each_crate_has_a_line_in_the_readme_and_in_the_trace() {
    let (readme, trace) = (text("README.md"), text("docs/TRACE.md"));
    for name in crates() {
        assert!(
            readme.contains(&format!("  - `{name}`: ")),
            "README.md has no line for {name}"
        );
        assert!(
            trace.contains(&format!("| `{name}` | ")),
            "docs/TRACE.md has no line for {name}"
        );
    }
}

/// The fields of the records in the files of definitions of a crate, as `RECORD FILE FIELD`.
fn claims_of(name: &str) -> Vec<String> {
    let Ok(folder) = fs::read_dir(file("crates").join(name).join("specs")) else {
        return vec![];
    };
    let mut claims = vec![];
    for entry in folder {
        let path = entry.expect("the folder can be read").path();
        let of = path
            .file_name()
            .and_then(|name| name.to_str())
            .expect("a name in ASCII")
            .to_string();
        let source = fs::read_to_string(&path).expect("a file of definitions is text");
        // a record, and how far its line is set in: its fields are two places further in
        let (mut record, mut margin) = ("", 0);
        for line in source.lines() {
            let words = line.trim_start();
            let set_in = line.len() - words.len();
            if let Some(head) = words.strip_prefix("pub record ") {
                record = head.split(' ').next().expect("a record has a name");
                margin = set_in;
            } else if let Some((field, _)) = words.strip_prefix("pub ").and_then(|rest| rest.split_once(" :")) {
                if set_in == margin + 2 {
                    claims.push(format!("{record} {name}/specs/{of} {field}"));
                }
            } else if !words.is_empty() && set_in <= margin {
                margin = usize::MAX - 2;
            }
        }
    }
    claims
}

#[test]
fn the_page_of_claims_has_each_field_of_each_record_and_no_other() {
    let page = text("docs/CLAIMS.md");
    let told: BTreeSet<String> = page
        .lines()
        .filter(|line| line.starts_with("| `"))
        .flat_map(|line| {
            let names: Vec<&str> = line.split('`').skip(1).step_by(2).collect();
            names[2..]
                .iter()
                .map(|field| format!("{} {} {field}", names[0], names[1]))
                .collect::<Vec<_>>()
        })
        .collect();
    let there: BTreeSet<String> = crates().iter().flat_map(|name| claims_of(name)).collect();
    assert!(there.len() >= 200, "only {} claims", there.len());
    assert_eq!(told, there);
}
