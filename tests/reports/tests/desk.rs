//! The script ./desk, and tests/archive below it, in a made-up repository of their own: its cargo hands out a desk that tells how it was run.

use reports::made_up::{first_line, output, said, start, Repository, WAITING};
use std::fs::{self, File};
use std::os::unix::fs::symlink;
use std::process::{Child, Output};
use std::time::{Duration, SystemTime};

/// The status where the desk is not run.
const NONE: i32 = 2;

const BUILDING: &str = "building the desk, which takes some minutes the first time\n";
const PROVING: &str = "proving the functions for C, 4 crates\nproved other (1 of 4)\nproved boundary (2 of 4)\nproved boundary_c (3 of 4)\n";
const COMPILING: &str = "compiling the desk\n";

/// What stands for cargo. It takes all input that it can get, and fails where there is a file `wrong` or where something is built already:
/// the real one could pass over a change.
const CARGO: &str = r#"#!/bin/sh
root=$(dirname "$0")/../..
echo "cargo $*" >>"$root/calls"
cat >/dev/null
[ "$*" = 'build --manifest-path tests/Cargo.toml --offline --locked --release -p desk' ] || exit 101
[ -e tests/Cargo.toml ] && [ -e "$VEILBUZZ_ARCHIVE/libboundary.a" ] || exit 101
echo 'Compiling desk'
[ ! -e wrong ] || { echo 'error: this is wrong' >&2; exit 101; }
release=$CARGO_TARGET_DIR/${CARGO_BUILD_TARGET:-}/release
mkdir -p "${release%/*}" && mkdir "$release" && cp rust/desk "$release/desk"
"#;

/// What stands for the desk: it writes its folder, its words and its input, and ends with the status that it is told.
const DESK: &str = r#"#!/bin/sh
echo "in $PWD"
for word; do echo "<$word>"; done
cat
exit "${STATUS:-0}"
"#;

/// What the desk is made from beside the crates.
const SOURCES: [&str; 7] = [
    "desk-rust/Cargo.toml",
    "desk-rust/src/main.rs",
    "docs/REFUSALS.md",
    "tests/Cargo.lock",
    "tests/Cargo.toml",
    "wrapper/build.rs",
    "wrapper/src/lib.rs",
];

fn made_up(name: &str) -> Repository {
    let made = Repository::new(name, "desk");
    for source in SOURCES {
        made.write(source, source);
    }
    made.write_script("rust/bin/cargo", CARGO);
    made.write_script("rust/desk", DESK);
    made
}

/// One where the desk is built.
fn built(name: &str) -> Repository {
    let made = made_up(name);
    assert_eq!(made.ask("new").status.code(), Some(0));
    made
}

/// What the desk writes where it is run in the repository's folder with one word and no input.
fn written(made: &Repository, word: &str) -> String {
    format!("in {}\n<{word}>\n", made.root().display())
}

/// Holds the script to the desk's answer to one word, and to what it says before that.
fn answers(made: &Repository, output: &Output, word: &str, before: &str) {
    assert_eq!(said(output), before);
    assert_eq!(String::from_utf8_lossy(&output.stdout), written(made, word));
    assert_eq!(output.status.code(), Some(0));
}

/// Holds the script to no answer, and to a reason with each of these words in it.
fn refuses(output: &Output, words: &[&str]) {
    assert_eq!(output.status.code(), Some(NONE), "{}", said(output));
    assert_eq!(String::from_utf8_lossy(&output.stdout), "");
    for told in words {
        assert!(said(output).contains(told), "{told}: {}", said(output));
    }
}

/// Holds tests/archive to the archive's folder, and to what it says before that.
fn prints_folder(made: &Repository, output: &Output, before: &str) {
    assert_eq!(said(output), before);
    let folder = format!("{}\n", made.path("target/archive").display());
    assert_eq!(String::from_utf8_lossy(&output.stdout), folder);
    assert_eq!(output.status.code(), Some(0));
}

fn ended(child: Child) -> Output {
    child.wait_with_output().expect("the script ends")
}

#[test]
fn the_first_time_it_says_how_far_it_is_and_then_nothing_more() {
    let made = made_up("first");
    let before = format!("{BUILDING}{PROVING}{COMPILING}");
    answers(&made, &made.ask("--help"), "--help", &before);
    answers(&made, &made.ask("--help"), "--help", "");
    assert_eq!((made.calls("rt lib"), made.calls("cargo")), (1, 1));
}

#[test]
fn words_input_and_status_are_passed_on_as_they_are() {
    let made = made_up("words");
    let words = ["", "two words", "*", "--", "-n", "$HOME'\"\\", "a\nb"];
    let input = b"a chart\0\xff\n\nno line's end";
    let mut expected = format!("in {}\n", made.root().display()).into_bytes();
    for word in words {
        expected.extend(format!("<{word}>\n").bytes());
    }
    expected.extend(input);
    fs::write(made.path("input"), input).expect("a file can be written");
    // also where it is built first
    for status in [0, 1, 2, 77] {
        let mut command = made.command();
        command.args(words).env("STATUS", status.to_string());
        command.stdin(File::open(made.path("input")).expect("the file is there"));
        let output = command.output().expect("the script runs");
        assert_eq!(output.stdout, expected);
        assert_eq!(output.status.code(), Some(status));
    }
    let none = output(&mut made.command());
    assert_eq!(none.stdout.iter().filter(|byte| **byte == b'\n').count(), 1);
}

#[test]
fn it_is_run_from_any_folder_and_by_a_link() {
    let made = made_up("folders");
    made.write("else where/mine.txt", "");
    symlink(made.path("desk"), made.path("else where/link")).expect("a link can be made");
    let elsewhere = made.path("else where");
    let expected = format!("in {}\n<mine.txt>\n", elsewhere.display());
    for script in ["../desk", "./link"] {
        let mut shell = made.shell(&format!("exec {script} mine.txt"));
        let output = output(shell.current_dir(&elsewhere));
        assert_eq!(String::from_utf8_lossy(&output.stdout), expected, "{}", said(&output));
    }
    assert_eq!(made.calls("cargo"), 1);
}

#[test]
fn what_changed_is_built_anew_and_nothing_else() {
    let made = built("changed");
    let mut calls = (1, 1);
    let mut asked = |what: &str, proved: bool, compiled: bool| {
        calls = (calls.0 + usize::from(proved), calls.1 + usize::from(compiled));
        let before = [(compiled, BUILDING), (proved, PROVING), (compiled, COMPILING)];
        let before: String = before.iter().filter(|(said, _)| *said).map(|(_, line)| *line).collect();
        for before in [before.as_str(), ""] {
            answers(&made, &made.ask(what), what, before);
        }
        assert_eq!((made.calls("rt lib"), made.calls("cargo")), calls, "{what}");
    };
    for source in SOURCES {
        made.write(source, &source.to_uppercase());
        asked(source, false, true);
    }
    made.write("desk-rust/src/new.rs", "new");
    asked("a source is new", false, true);
    made.remove("desk-rust/src/new.rs");
    asked("a source is gone", false, true);
    let earlier = SystemTime::now() - Duration::from_secs(3600);
    let source = File::options().write(true).open(made.path("wrapper/src/lib.rs"));
    source
        .and_then(|source| source.set_modified(earlier))
        .expect("a file's time can be set");
    asked("a source has an older time", false, true);
    made.remove("target/desk/release/desk");
    asked("the desk is gone", false, true);
    made.write("crates/report/src/lib.rt", "changed");
    asked("a crate that no function for C stands on changed", false, true);
    made.write("crates/other/src/lib.rt", "changed");
    asked("a crate changed", true, true);
    made.write("crates/lists/proofs/Proof.antt", "new");
    asked("a proof is new", true, true);
    made.remove("crates/lists/proofs/Proof.antt");
    asked("a proof is gone", true, true);
    made.write("kit/version", "another kit\n");
    let rt = fs::read_to_string(made.path("kit/bin/rt")).expect("it is there");
    made.write("kit/bin/rt", &rt);
    asked("rt is another", true, true);
    made.write("rust/bin/cargo", CARGO);
    asked("cargo is another", false, true);
    made.write("crates/lists/must-fail/one.edit", "new");
    made.write("desk-rust/tests/all.rs", "new");
    made.write("charts/loop.txt", "new");
    asked("what the desk is not made from changed", false, false);
}

#[test]
fn a_built_desk_needs_neither_rt_nor_cargo() {
    let made = made_up("missing");
    let ask = |missing: &[&str]| output(made.command_without(missing).arg("new"));
    let no_rt = "there is no rt on PATH, and the desk is to be built; put the Rattle kit's bin folder on PATH\n";
    let no_cargo = "there is no cargo on PATH, and the desk is to be built; put the folder of Rust's cargo";
    let refuse = || {
        refuses(&ask(&["rt"]), &[no_rt]);
        refuses(&ask(&["cargo"]), &[no_cargo]);
        refuses(&ask(&["rt", "cargo"]), &[no_rt, no_cargo]);
        assert!(!said(&ask(&["rt"])).contains("cargo") && !said(&ask(&["cargo"])).contains("no rt"));
    };
    refuse();
    assert_eq!((made.calls("rt lib"), made.calls("cargo")), (0, 0));
    made.ask("new");
    for missing in [&["rt"][..], &["cargo"], &["rt", "cargo"]] {
        answers(&made, &ask(missing), "new", "");
    }
    made.remove("desk-rust/src/main.rs");
    refuse();
}

#[test]
fn what_is_not_proved_is_not_run() {
    let made = built("unproved");
    made.write("crates/other/src/lib.rt", "wrong");
    made.write("broken", "");
    for _ in 0..2 {
        let words = [
            "fn other::first: not proved\n",
            "rt: the library other did not build, so nothing above it was checked\n",
            "so it is not built; mend or undo",
        ];
        refuses(&made.ask("new"), &words);
    }
    assert_eq!(made.calls("cargo"), 1);
    made.remove("broken");
    let before = format!("{BUILDING}{PROVING}{COMPILING}");
    answers(&made, &made.ask("new"), "new", &before);
}

#[test]
fn what_is_not_compiled_is_not_run() {
    let made = built("uncompiled");
    made.write("desk-rust/src/main.rs", "wrong");
    made.write("wrong", "");
    for _ in 0..2 {
        let words = [
            "Compiling desk\n",
            "error: this is wrong\n",
            "so it is not run; mend or undo",
        ];
        refuses(&made.ask("new"), &words);
    }
    made.remove("wrong");
    answers(&made, &made.ask("new"), "new", &format!("{BUILDING}{COMPILING}"));
    made.write("desk-rust/src/main.rs", "right");
    let elsewhere = output(made.command().arg("new").env("CARGO_BUILD_TARGET", "another"));
    refuses(&elsewhere, &["cargo put it elsewhere"]);
}

#[test]
fn what_changes_while_it_is_built_is_built_anew() {
    let made = made_up("meanwhile");
    let first = made.held("new");
    made.write("desk-rust/src/main.rs", "changed");
    made.remove("held");
    answers(&made, &ended(first), "new", &format!("{BUILDING}{PROVING}{COMPILING}"));
    answers(&made, &made.ask("new"), "new", &format!("{BUILDING}{COMPILING}"));
    answers(&made, &made.ask("new"), "new", "");
}

#[test]
fn of_two_at_once_the_second_waits_and_builds_nothing() {
    let made = made_up("two");
    let first = made.held("new");
    let mut second = start(made.command().arg("new"));
    let mut archive = start(&mut made.shell("exec tests/archive"));
    for waiting in [&mut second, &mut archive] {
        assert_eq!(first_line(waiting), WAITING);
    }
    made.remove("held");
    answers(&made, &ended(first), "new", &format!("{BUILDING}{PROVING}{COMPILING}"));
    answers(&made, &ended(second), "new", "");
    prints_folder(&made, &ended(archive), "");
    assert_eq!((made.calls("rt lib"), made.calls("cargo")), (1, 1));
}

#[test]
fn there_is_one_archive_and_what_rt_made_is_copied_under_its_name() {
    let made = made_up("one");
    let strange = output(&mut made.shell("exec tests/archive x86-64"));
    refuses(&strange, &["archive: say 'archive' and no more"]);
    assert_eq!(made.calls("rt"), 0);
    prints_folder(&made, &output(&mut made.shell("exec tests/archive")), PROVING);
    let archive = |file: &str| fs::read_to_string(made.path(file)).expect("it is there");
    for file in ["target/archive/libboundary.a", "crates/boundary_c/out/libboundary_c.a"] {
        assert_eq!(archive(file), "archive\n");
    }
    // what rt makes beside the sources is none of them
    made.remove("crates/boundary_c/out/libboundary_c.a");
    prints_folder(&made, &output(&mut made.shell("exec tests/archive")), "");
    assert_eq!(made.calls("rt"), 1);
}

#[test]
fn the_archive_says_how_far_it_is_and_prints_its_folder_alone() {
    let made = made_up("archive");
    let archive = |before: &str, calls: usize| {
        prints_folder(&made, &output(&mut made.shell("exec tests/archive")), before);
        assert_eq!(made.calls("rt lib"), calls);
    };
    archive(PROVING, 1);
    archive("", 1);
    made.write("crates/lists/must-fail/one.edit", "new");
    made.write("crates/report/src/lib.rt", "changed");
    archive("", 1);
    made.write("crates/boundary/src/lib.rt", "changed");
    archive(PROVING, 2);
    made.write("target/archive/libboundary.a", "changed");
    archive(PROVING, 3);
}
