//! Graphviz as a child process: what is there in its place fails, babbles, does not read, or does not end, and the desk does.

use crate::drawn::found;
use crate::place::Place;
use crate::trying::made;
use desk::dot::{plain, Unlaid, DOT, PATIENCE};
use desk::dot_source::bare;
use desk::laid::laid;
use desk::picture::undrawn;
use desk::plan::Plan;
use std::ffi::OsStr;
use std::fs::{self, Permissions};
use std::os::unix::fs::PermissionsExt;
use std::path::PathBuf;
use std::time::{Duration, Instant};

/// So long what stands for Graphviz may take.
const SOON: Duration = Duration::from_millis(500);

/// A program of these lines of shell.
pub fn script(place: &Place, name: &str, lines: &str) -> PathBuf {
    let path = place.path(name);
    fs::write(&path, format!("#!/bin/sh\n{lines}\n")).expect("a file can be written");
    fs::set_permissions(&path, Permissions::from_mode(0o755)).expect("a file can be made to run");
    path
}

#[test]
fn whatever_stands_for_graphviz_there_is_an_answer_soon() {
    let place = Place::new("dots");
    // more than a pipe holds
    let source = "x".repeat(1 << 20);
    for (name, lines, expected) in [
        ("reads", "cat >/dev/null; echo read", Ok("read\n")),
        ("does-not-read", "echo unread", Ok("unread\n")),
        ("fails", "cat >/dev/null; echo read; exit 1", Err(Unlaid::Failed)),
        ("is-ended", "kill -9 $$", Err(Unlaid::Failed)),
        ("no-text", "printf '\\377'", Err(Unlaid::Failed)),
        ("endless", "exec yes", Err(Unlaid::Late)),
        ("hangs", "exec sleep 5", Err(Unlaid::Late)),
        ("leaves-another", "sleep 5 &", Err(Unlaid::Late)),
        ("hangs-with-another", "sleep 5; echo late", Err(Unlaid::Late)),
        ("says-and-hangs", "echo said; exec >&-; exec sleep 5", Err(Unlaid::Late)),
    ] {
        let program = script(&place, name, lines);
        let begin = Instant::now();
        let written = plain(program.as_os_str(), source.clone(), SOON);
        let taken = begin.elapsed();
        match (name, &written) {
            // it may have written all that is read before its time is over
            ("endless", Err(Unlaid::Failed)) => {}
            _ => assert_eq!(written.as_deref(), expected.as_deref(), "{name}"),
        }
        assert!(taken < Duration::from_secs(4), "{name}: {taken:?}");
    }
}

#[test]
fn a_program_that_is_not_there_or_none_is_told() {
    let place = Place::new("dots-missing");
    let none = place.path("none");
    assert_eq!(plain(none.as_os_str(), String::new(), SOON), Err(Unlaid::Missing));
    fs::write(&none, "no program").expect("a file can be written");
    assert_eq!(plain(none.as_os_str(), String::new(), SOON), Err(Unlaid::Failed));
}

#[test]
fn that_it_takes_too_long_is_told_with_what_to_do() {
    let late = undrawn(Unlaid::Late);
    assert_eq!(late.what, "dot was run, and had laid out nothing after 60 seconds");
    assert!(late.mend.contains("--dot"), "{}", late.mend);
}

/// A loop and a node after it, as they are laid out.
#[test]
fn a_layout_is_read_and_nothing_less_is() {
    let known = made("cache line 16 sets 1 ways 1 start empty\nentry a\na: -> a, b\nb:\n");
    let findings = found(&known);
    let plan = Plan::of(&findings);
    let text = plain(OsStr::new(DOT), bare(&plan), PATIENCE).expect("Graphviz is there");
    let whole = laid(&text, &plan).expect("it is whole");
    assert_eq!((whole.items.len(), whole.arrows.len()), (4, 4));
    for line in text
        .lines()
        .filter(|line| line.starts_with("node") || line.starts_with("edge"))
    {
        assert_eq!(laid(&text.replace(line, ""), &plan), None, "without {line}");
        let read = if line.starts_with("node") { 2..4 } else { 2..5 };
        for word in read {
            let words: Vec<&str> = line.split(' ').collect();
            for other in ["x", "nan", "inf", "1e30", ""] {
                let mut spoilt = words.clone();
                spoilt[word] = other;
                let spoilt = text.replace(line, &spoilt.join(" "));
                // where a number is left out, the node's width is in its place
                if !(other.is_empty() && line.starts_with("node")) {
                    assert_eq!(laid(&spoilt, &plan), None, "{spoilt}");
                }
            }
        }
        let cut = text.replace(line, &line[..12]);
        assert_eq!(laid(&cut, &plan), None, "{cut}");
    }
    assert_eq!(laid("", &plan), None);
    let line = text
        .lines()
        .find(|line| line.starts_with("edge n0 n1"))
        .expect("it is there");
    for (points, whole) in [(1, false), (2, false), (4, true), (5, false), (7, true)] {
        let other = format!("edge n0 n1 {points}{} solid", " 1 2".repeat(points));
        assert_eq!(
            laid(&text.replace(line, &other), &plan).is_some(),
            whole,
            "{points} points"
        );
    }
    assert_eq!(
        laid(&text.replace("edge n0 n0 ", "edge n0 n0 99999999999 "), &plan),
        None
    );
}
