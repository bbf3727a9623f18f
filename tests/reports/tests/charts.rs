//! The charts of the folder charts/: each with its source and its report, all of them told in its README, the rules' own among them.

use charts::Chart;
use reports::each::each;
use reports::folder::{chart, names, report, rows, text, words};
use reports::hold::agrees;
use reports::program::run;

/// The charts of the rules' examples (sections 14 and 8) by name.
fn of_the_rules() -> [(&'static str, Chart); 6] {
    let near = || Chart::straight(&[0x00, 0x10, 0x00]);
    let far = || Chart::straight(&[0x00, 0x20, 0x00]);
    [
        ("loop", Chart::sample()),
        ("straight-00-10-00-one-set-two-ways-unknown", near().shaped(0, 2, 0)),
        ("straight-00-10-00-one-set-two-ways-empty", near().shaped(0, 2, 1)),
        ("straight-00-10-00-one-set-one-way-unknown", near().shaped(0, 1, 0)),
        ("straight-00-20-00-one-set-two-ways-unknown", far().shaped(0, 2, 0)),
        ("straight-00-20-00-two-sets-one-way-unknown", far().shaped(1, 1, 0)),
    ]
}

/// What the examples say of them, node by node.
const SAID: [[&str; 3]; 6] = [
    ["none", "kept", "hit"],
    ["kept", "kept", "hit"],
    ["miss", "miss", "hit"],
    ["kept", "miss", "miss"],
    ["kept", "kept", "hit"],
    ["kept", "miss", "miss"],
];

#[test]
fn each_chart_has_a_source_and_a_report_and_none_is_left_over() {
    let charts = names(".chart");
    assert!(charts.len() >= 12, "there are {} charts", charts.len());
    assert_eq!(charts, names(".hex"));
    assert_eq!(charts, names(".report"));
}

#[test]
fn the_program_prints_each_report_byte_for_byte() {
    each(&names(".chart"), |name| {
        assert_eq!(run(&chart(name)), report(name), "{name}")
    });
}

#[test]
fn the_second_program_agrees_on_each_chart() {
    each(&names(".chart"), |name| agrees(&chart(name)));
}

#[test]
fn the_readme_names_each_chart_and_no_other() {
    let mut told: Vec<String> = rows(|first| first.starts_with('`'))
        .iter()
        .map(|row| row[0].trim_matches('`').to_string())
        .collect();
    told.sort();
    assert_eq!(told, names(".chart"));
}

#[test]
fn the_readme_tells_each_report() {
    for row in rows(|first| first.starts_with('`')) {
        let name = row[0].trim_matches('`');
        let told = row.last().expect("a row has cells");
        let expected = match name {
            // winch.rs holds the page to these
            "winch-as-built" | "winch-facts" | "winch-swapped" => "below".to_string(),
            _ => words(&report(name)).join(", "),
        };
        assert_eq!(*told, expected, "{name}");
    }
}

#[test]
fn the_front_page_shows_the_samples_report() {
    let shown: String = report("loop").lines().map(|line| format!("    {line}\n")).collect();
    let page = text("../README.md");
    assert!(page.contains(&format!("    $ ./report charts/loop.chart\n{shown}\n")));
}

#[test]
fn there_is_a_chart_for_each_word() {
    for word in ["hit", "miss", "kept", "unsure", "unreached", "none"] {
        let report = report(&format!("class-{word}"));
        assert!(words(&report).contains(&word), "class-{word}: {report}");
    }
}

#[test]
fn the_charts_of_the_rules_have_their_bytes_and_their_classes() {
    for ((name, expected), said) in of_the_rules().into_iter().zip(SAID) {
        let [first, second, third] = said;
        let blocks = if name == "loop" { 1 } else { 2 };
        let whole = format!("nodes 3 blocks {blocks} passes 2\n0 {first} none\n1 {second} none\n2 {third} none\n");
        assert_eq!(chart(name), expected.bytes(), "{name}");
        assert_eq!(report(name), whole, "{name}");
    }
}
