//! Asking for a report: the script ./report, in a made-up repository of its own.

use reports::folder;
use reports::made_up::{first_line, output, said, start, Repository, WAITING};
use reports::program::{file, CUT, PROGRAM};
use std::fs::{self, File, Permissions};
use std::os::unix::fs::PermissionsExt;
use std::process::{Command, Output, Stdio};

/// The status where there is no report.
const NONE: i32 = 3;

/// What is said while the program is proved and built.
const PROVED: &str = "proving the program, 3 crates\nproved report (1 of 3)\nproved veilbuzz (2 of 3)\n";

fn made_up(name: &str) -> Repository {
    Repository::new(name, "report").with_program()
}

/// One where the program is built.
fn built(name: &str) -> Repository {
    let made = made_up(name);
    assert_eq!(made.ask(&chart("loop")).status.code(), Some(0));
    made
}

fn chart(name: &str) -> String {
    file(&format!("charts/{name}.chart")).display().to_string()
}

fn open_chart(name: &str) -> File {
    File::open(chart(name)).expect("the chart is there")
}

/// Holds the script to a chart's stored report and to a status, and to silence beside.
fn reports(output: &Output, name: &str, status: i32) {
    assert_eq!(String::from_utf8_lossy(&output.stdout), folder::report(name));
    assert_eq!((output.status.code(), said(output)), (Some(status), ""));
}

/// Holds the script to no report, and to a reason with these words in it.
fn refuses(output: &Output, words: &str) {
    assert_eq!(output.status.code(), Some(NONE), "{}", said(output));
    assert!(
        output.stdout.is_empty() && said(output).contains(words),
        "{}",
        said(output)
    );
}

#[test]
fn help_needs_no_program_and_tells_each_status() {
    let made = made_up("help");
    for word in ["--help", "-h"] {
        let help = output(made.command_without(&["rt"]).arg(word));
        assert_eq!((help.status.code(), said(&help)), (Some(0), ""));
        let text = String::from_utf8(help.stdout).expect("words in UTF-8");
        for told in [
            "./report -",
            "0 after a report",
            "1 after a refusal",
            "2 where",
            "3 where",
        ] {
            assert!(text.contains(told), "{told}: {text}");
        }
    }
    assert!(!made.path("target").exists());
}

#[test]
fn the_first_time_it_says_how_far_it_is_and_then_nothing_more() {
    let made = made_up("first");
    let first = made.ask(&chart("loop"));
    assert_eq!((first.status.code(), said(&first)), (Some(0), PROVED));
    assert_eq!(String::from_utf8_lossy(&first.stdout), folder::report("loop"));
    reports(&made.ask(&chart("loop")), "loop", 0);
    assert_eq!(made.calls("rt"), 1);
}

#[test]
fn a_built_program_needs_no_rt() {
    let made = made_up("without-rt");
    refuses(
        &output(made.command_without(&["rt"]).arg(chart("loop"))),
        "there is no rt on PATH",
    );
    made.ask(&chart("loop"));
    reports(&output(made.command_without(&["rt"]).arg(chart("loop"))), "loop", 0);
    let refused = "refused-cut-short";
    reports(&output(made.command_without(&["rt"]).arg(chart(refused))), refused, 1);
    made.write("crates/lists/src/lib.rt", "changed");
    refuses(
        &output(made.command_without(&["rt"]).arg(chart("loop"))),
        "there is no rt on PATH",
    );
}

#[test]
fn a_chart_comes_by_name_or_on_standard_input() {
    let made = built("input");
    for name in ["loop", "refused-cut-short"] {
        let status = i32::from(name != "loop");
        reports(&made.ask(&chart(name)), name, status);
        let run = |command: &mut Command| command.stdin(open_chart(name)).output().expect("the script runs");
        reports(&run(made.command().arg("-")), name, status);
        reports(&run(&mut made.command()), name, status);
        let mut elsewhere = made.command();
        elsewhere.current_dir(file("charts")).arg(format!("{name}.chart"));
        reports(&output(&mut elsewhere), name, status);
    }
}

#[test]
fn a_chart_on_standard_input_is_there_still_when_the_program_has_been_built() {
    let made = made_up("kept");
    let first = made
        .command()
        .stdin(open_chart("loop"))
        .output()
        .expect("the script runs");
    assert_eq!(String::from_utf8_lossy(&first.stdout), folder::report("loop"));
}

#[test]
fn what_is_no_chart_gets_a_reason() {
    let made = made_up("reasons");
    refuses(&made.ask("nowhere.chart"), "there is no file nowhere.chart");
    refuses(&made.ask(""), "there is no file");
    refuses(&made.ask("crates"), "crates is a folder");
    refuses(
        &output(made.command().args([chart("loop"), chart("loop")])),
        "name one chart",
    );
    assert_eq!(made.calls("rt"), 0);
}

#[test]
fn a_report_that_cannot_be_written_whole_ends_with_2() {
    let made = built("cut");
    let mut full = made.command();
    full.arg(chart("loop")).stdout(
        File::options()
            .write(true)
            .open("/dev/full")
            .expect("/dev/full is there"),
    );
    let mut child = made
        .command()
        .arg("-")
        .stdin(Stdio::piped())
        .stdout(Stdio::piped())
        .spawn()
        .expect("the script runs");
    drop(child.stdout.take());
    drop(child.stdin.take());
    assert_eq!(child.wait().expect("the script ends").code(), Some(CUT));
    assert_eq!(full.status().expect("the script runs").code(), Some(CUT));
    for closed in [">&-", "<&- >&-", ">&- 2>&-", "<&- >&- 2>&-"] {
        let mut shell = made.shell(&format!("exec \"$0\" \"$1\" {closed}"));
        let status = shell.arg(chart("loop")).status().expect("a shell runs");
        assert_eq!(status.code(), Some(CUT), "{closed}");
    }
}

#[test]
fn what_changed_is_proved_anew_and_nothing_else() {
    let made = built("changed");
    let mut checks = 1;
    let mut asked = |what: &str, anew: bool| {
        checks += usize::from(anew);
        let output = made.ask(&chart("loop"));
        assert_eq!(
            String::from_utf8_lossy(&output.stdout),
            folder::report("loop"),
            "{what}"
        );
        assert_eq!(made.calls("rt"), checks, "{what}");
    };
    made.write("crates/lists/src/lib.rt", "changed");
    asked("a source changed", true);
    made.write("crates/report/proofs/Proof.antt", "new");
    asked("a proof is new", true);
    made.write(
        "crates.txt",
        &format!(
            "{}# changed\n",
            fs::read_to_string(made.path("crates.txt")).expect("it is there")
        ),
    );
    asked("the list of crates changed", true);
    made.write("kit/version", "another kit\n");
    asked("rt is another", true);
    made.remove(PROGRAM);
    asked("the program is gone", true);
    made.write(PROGRAM, "changed");
    asked("the program changed", true);
    fs::set_permissions(made.path(PROGRAM), Permissions::from_mode(0o644)).expect("it can be changed");
    asked("the program cannot be run", true);
    made.write("crates/other/src/lib.rt", "changed");
    made.write("crates/lists/must-fail/one.edit", "new");
    asked("what the program does not stand on changed", false);
}

#[test]
fn what_is_not_proved_is_not_run() {
    let made = built("unproved");
    made.write("crates/report/src/lib.rt", "wrong");
    made.write("broken", "");
    for _ in 0..2 {
        refuses(
            &made.ask(&chart("loop")),
            "rt: the library report did not build, so nothing above it was checked",
        );
    }
    refuses(
        &output(made.command_without(&["rt"]).arg(chart("loop"))),
        "there is no rt on PATH",
    );
    made.remove("broken");
    assert_eq!(said(&made.ask(&chart("loop"))), PROVED);
    reports(&made.ask(&chart("loop")), "loop", 0);
}

#[test]
fn of_two_at_once_the_second_waits_and_proves_nothing() {
    let made = made_up("two");
    let first = made.held(&chart("loop"));
    let mut second = start(made.command().arg(chart("loop")));
    assert_eq!(first_line(&mut second), WAITING);
    made.remove("held");
    let first = first.wait_with_output().expect("the script ends");
    assert_eq!((first.status.code(), said(&first)), (Some(0), PROVED));
    let second = second.wait_with_output().expect("the script ends");
    reports(&second, "loop", 0);
    assert_eq!(made.calls("rt"), 1);
}
