//! Calls with every odd word: an answer or a clear error, never a panic.

use crate::json::read;
use crate::place::Place;
use crate::running::{said, DESK};
use desk::args::{asked, COMMANDS};
use reports::each::each;
use std::ffi::OsString;
use std::fs::{self, File, Permissions};
use std::os::unix::ffi::OsStringExt;
use std::os::unix::fs::PermissionsExt;
use std::process::Command;

fn odd() -> Vec<OsString> {
    let plain = [
        "",
        "-",
        "--",
        "---",
        "=",
        "--=",
        "-o",
        "-o=",
        "-o=-",
        "--hit",
        "--hit=",
        "--hit=1",
        "--miss=0x10",
        "--json",
        "--json=1",
        "--help=1",
        "a b",
        "\n",
        "\x1B[31m",
        "écho",
        "深さ",
        "\u{202E}",
        "0",
        "-1",
        "99999999999999999999",
        "no/such/file",
        ".",
        "/",
        "charts/loop.txt",
    ];
    let long = ["a".repeat(3_000), "-".repeat(3_000), format!("--{}", "h".repeat(3_000))];
    let bytes = [
        b"\xFF".to_vec(),
        b"--\xFF".to_vec(),
        b"-o=\xC3".to_vec(),
        b"charts/\xFF.txt".to_vec(),
    ];
    let words = plain.into_iter().map(OsString::from).chain(long.map(OsString::from));
    words.chain(bytes.map(OsString::from_vec)).collect()
}

#[test]
fn any_three_words_are_a_call_or_a_clear_error() {
    let odd = odd();
    let names: Vec<OsString> = COMMANDS.iter().map(|command| command.1.into()).collect();
    for first in names.iter().chain(&odd) {
        for second in &odd {
            for third in &odd {
                let words = [first, second, third].map(OsString::clone);
                if let Err(trouble) = asked(words.to_vec()) {
                    assert_eq!(trouble.status(), 2);
                    assert!(trouble.words().starts_with("desk: ") && trouble.words().ends_with('\n'));
                    assert_eq!(read(&trouble.json().to_string()).at("errors").list().len(), 1);
                }
            }
        }
    }
}

#[test]
fn every_command_ends_in_peace_with_every_odd_word() {
    let names: Vec<OsString> = COMMANDS.iter().map(|command| command.1.into()).collect();
    let odd = odd();
    let mut calls: Vec<Vec<OsString>> = odd.iter().map(|word| vec![word.clone()]).collect();
    for name in &names {
        calls.extend(odd.iter().map(|word| vec![name.clone(), word.clone()]));
    }
    calls.extend(
        odd.iter()
            .map(|word| vec!["why".into(), "charts/loop.txt".into(), word.clone()]),
    );
    let place = Place::new("odd-words");
    each(&calls, |call| {
        let mut command = Command::new(DESK);
        command.current_dir(place.path("")).args(call);
        let said = said(command, b"");
        assert!(!said.err.contains("panicked"), "{call:?}: {}", said.err);
        assert_eq!(
            said.status == 0,
            said.err.is_empty() && !said.out.contains("\"errors\""),
            "{call:?}"
        );
    });
}

#[test]
fn a_file_that_may_not_be_read_or_written_is_told() {
    let place = Place::new("permissions");
    fs::write(place.path("mine.txt"), "").expect("a file can be written");
    fs::set_permissions(place.path("mine.txt"), Permissions::from_mode(0o000)).expect("it can be closed");
    if File::open(place.path("mine.txt")).is_ok() {
        // nothing is closed to who runs this
        return;
    }
    for (line, says) in [
        ("./desk report mine.txt", "mine.txt cannot be read"),
        ("./desk chart charts/loop.txt -o mine.txt", "mine.txt cannot be written"),
    ] {
        let said = place.run(line);
        assert_eq!((said.status, said.out.as_str()), (2, ""));
        assert!(said.err.contains(says), "{}", said.err);
    }
}

#[test]
fn the_name_of_a_file_tells_a_terminal_nothing_but_text() {
    let place = Place::new("odd-name");
    let name = "a\x1B[31m\u{85}.txt";
    fs::copy(place.path("charts/loop.txt"), place.path(name)).expect("it can be copied");
    for command in ["report", "totals", "page -o -", "draw -o -", "draw --dot"] {
        let said = place.run(&format!("./desk {command} '{name}'"));
        assert_eq!(said.status, 0, "{}", said.err);
        assert!(said.out.contains("a\u{FFFD}[31m\u{FFFD}.txt"), "{}", said.out);
        assert!(!said.out.contains(['\x1B', '\u{85}']), "{}", said.out);
    }
}
