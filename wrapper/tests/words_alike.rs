//! The words of refusals and the version are the same wherever they stand.

use std::path::Path;
use std::process::Command;
use veilbuzz::{Refusal, VERSION};

const README: &str = include_str!("../../README.md");
const PAGE: &str = include_str!("../../docs/REFUSALS.md");
const DESK: &str = include_str!("../../desk-rust/Cargo.toml");

/// Numbers of refusals, those around and between them that are none, and two that are none in all their 64 bits.
fn numbers() -> impl Iterator<Item = usize> {
    (0..=30).chain([1 << 32 | 1, usize::MAX])
}

/// Each refusal that there is, with what was found and what to do.
fn refusals() -> Vec<(usize, &'static str, &'static str)> {
    numbers()
        .map(|number| Refusal { number, place: 0 })
        .filter_map(|refusal| Some((refusal.number, refusal.found()?, refusal.mend()?)))
        .collect()
}

/// What a C program prints of the header.
fn header() -> String {
    let root = Path::new(env!("CARGO_MANIFEST_DIR")).join("..");
    let program = Path::new(env!("CARGO_TARGET_TMPDIR")).join("words");
    let mut compiler = Command::new("cc");
    compiler.args([
        "-std=c11",
        "-O2",
        "-Wall",
        "-Wextra",
        "-Werror",
        "-pedantic",
        "-Iinclude",
    ]);
    compiler
        .arg("tests/header/words.c")
        .arg("-o")
        .arg(&program)
        .current_dir(root);
    let compiled = compiler.output().expect("the compiler starts");
    let said = String::from_utf8_lossy(&compiled.stderr);
    assert!(compiled.status.success() && said.is_empty(), "{said}");
    let output = Command::new(program).output().expect("the program starts");
    String::from_utf8(output.stdout).expect("the header is in ASCII")
}

#[test]
fn the_header_has_the_same_words_and_the_same_version() {
    let mut expected = format!("version {VERSION}\n");
    for number in numbers() {
        let refusal = Refusal { number, place: 0 };
        let [found, mend] = [refusal.found(), refusal.mend()].map(|words| words.unwrap_or("NULL"));
        expected += &format!("{number}: {found} ({mend})\n");
    }
    assert_eq!(header(), expected);
}

#[test]
fn the_desk_has_the_same_version() {
    assert!(
        DESK.contains(&format!("\nversion = \"{VERSION}\"\n")),
        "the desk's is not {VERSION}"
    );
}

#[test]
fn the_readme_has_these_words_of_each_refusal_in_its_table() {
    let (_, after) = README
        .split_once("\n## When a chart is refused\n")
        .expect("there is a section");
    let section = after.split("\n## ").next().expect("there is a first part");
    let rows: Vec<&str> = section.lines().filter(|line| line.starts_with('|')).skip(2).collect();
    let expected = refusals()
        .into_iter()
        .map(|(number, found, mend)| format!("| {number} | {found} | {mend} |"));
    assert_eq!(rows, expected.collect::<Vec<String>>());
}

#[test]
fn the_page_of_refusals_has_a_section_of_each_and_no_other() {
    let headings = PAGE
        .lines()
        .filter_map(|line| line.strip_prefix("## ")?.split_once(". "));
    let told: Vec<String> = headings.map(|(number, _)| number.to_string()).collect();
    let there: Vec<String> = refusals().iter().map(|(number, ..)| number.to_string()).collect();
    assert_eq!(told, there);
}
