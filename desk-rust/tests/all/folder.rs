//! The charts of the folder charts/: each has a text, of which the desk makes the same bytes, and it answers both alike.

use crate::json::{read, Json};
use crate::trying::{known, trouble};
use desk::report::report;
use reports::folder::{chart, names, text};

fn accepted() -> Vec<String> {
    let mut names = names(".chart");
    names.retain(|name| !name.starts_with("refused-"));
    names
}

#[test]
fn each_chart_has_a_text_and_none_is_left_over() {
    assert_eq!(names(".txt"), names(".chart"));
}

#[test]
fn each_text_makes_its_chart_byte_for_byte() {
    let accepted = accepted();
    assert!(accepted.len() >= 16, "only {} charts", accepted.len());
    for name in accepted {
        assert_eq!(
            known(text(&format!("{name}.txt")).as_bytes()).chart,
            chart(&name),
            "{name}"
        );
    }
}

#[test]
fn each_refused_chart_has_a_text_in_error() {
    let refused = names(".chart").len() - accepted().len();
    assert!(refused >= 3, "only {refused} charts");
    for name in names(".chart").iter().filter(|name| name.starts_with("refused-")) {
        assert!(
            trouble(text(&format!("{name}.txt")).as_bytes())
                .words()
                .contains("1 fault in"),
            "{name}"
        );
    }
}

#[test]
fn a_text_and_its_chart_have_one_report_but_for_names() {
    let classes = |bytes: &[u8]| -> Vec<Json> {
        let report = report(&known(bytes)).unwrap_or_else(|trouble| panic!("{}", trouble.words()));
        let json = read(&report.json().to_string());
        json.at("nodes")
            .list()
            .iter()
            .map(|node| node.at("classes").clone())
            .collect()
    };
    for name in accepted() {
        assert_eq!(
            classes(text(&format!("{name}.txt")).as_bytes()),
            classes(&chart(&name)),
            "{name}"
        );
    }
}
