//! Every message about a text: golden/faults/ has a text with each fault, NAME.txt, and what the desk says of it, NAME.said.

use crate::golden::{difference, folder, hold, names};
use crate::json::{read, Json};
use crate::running::{desk, said};
use reports::each::each;
use std::sync::Mutex;

/// What is told of a fault in its first line: where it is, and what was found.
type Told = (usize, usize, String);

/// The first lines of all faults that are told for people.
fn told(file: &str, words: &str) -> Vec<Told> {
    let begins = format!("{file}:");
    let told = |line: &str| {
        let mut parts = line.strip_prefix(&begins)?.splitn(3, ':');
        let mut number = || parts.next()?.parse().ok();
        let (row, column) = (number()?, number()?);
        Some((row, column, parts.next()?.trim_start().to_string()))
    };
    words.lines().filter_map(told).collect()
}

/// The same for scripts.
fn listed(json: &Json) -> Vec<Told> {
    let listed = |error: &Json| {
        let what = error.at("what").text().to_string();
        assert!(!error.at("code").text().is_empty() && !error.at("may_stand").text().is_empty());
        (error.at("line").count(), error.at("column").count(), what)
    };
    json.at("errors").list().iter().map(listed).collect()
}

#[test]
fn each_fault_is_told_as_its_golden_file_has_it() {
    let folder = folder("faults");
    let texts = names(&folder, ".txt");
    assert!(texts.len() >= 190, "only {} faults", texts.len());
    let differences = Mutex::new(vec![]);
    each(&texts, |name| {
        let said = said(desk(&folder, &["report", &format!("{name}.txt")]), b"");
        assert_eq!((said.out.as_str(), said.status), ("", 1), "{name}");
        let difference = difference(&folder.join(format!("{name}.said")), &said.err);
        differences.lock().expect("no other thread failed").extend(difference);
    });
    hold(differences.into_inner().expect("no thread failed"));
    assert_eq!(names(&folder, ".said"), texts, "a text for each, and each for a text");
}

#[test]
fn a_script_is_told_of_the_same_faults_at_the_same_places() {
    let folder = folder("faults");
    each(&names(&folder, ".txt"), |name| {
        let file = format!("{name}.txt");
        let words = said(desk(&folder, &["report", &file]), b"");
        let json = said(desk(&folder, &["report", "--json", &file]), b"");
        assert_eq!((json.err.as_str(), json.status), ("", 1), "{name}");
        let listed = listed(&read(&json.out));
        assert!(!listed.is_empty(), "{name}");
        assert_eq!(listed, told(&file, &words.err), "{name}");
    });
}
