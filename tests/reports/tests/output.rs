//! How the program leaves its output: to nobody, to a full pipe, to a full disk. It ends, what it left is a beginning of its report, and
//! its status says that this is not all.

use charts::Chart;
use reports::hold::same;
use reports::program::{command, command_after, ends, finish, hand, runs, start, CUT};
use second::limits::NODES;
use second::report::report;
use std::fs::{self, File};
use std::io::{pipe, Read, Write};
use std::path::Path;
use std::process::{Child, Command};
use std::sync::atomic::{AtomicBool, AtomicUsize, Ordering};
use std::sync::Arc;
use std::thread::{self, sleep};
use std::time::Duration;

/// The program as it is started, and with the signal ignored that a closed pipe or a full file sends.
fn both_ways() -> [Command; 2] {
    [command(), command_after("trap '' PIPE XFSZ")]
}

/// A chart with a long report.
fn chart() -> Vec<u8> {
    Chart::steps(NODES).bytes()
}

/// Hands the chart over and closes the input.
fn hand_chart(child: &mut Child) {
    hand(child, &chart());
    drop(child.stdin.take());
}

fn must_end(child: &mut Child, since: &str) {
    let status = ends(child).unwrap_or_else(|| panic!("the program still runs ten seconds after {since}"));
    assert_eq!(status, CUT, "the status after {since}");
}

/// Keeps a pipe full of dots from a thread of its own, until it is told to stop or nobody reads.
fn keep_full(mut writer: impl Write + Send + 'static) -> Arc<AtomicBool> {
    let stop = Arc::new(AtomicBool::new(false));
    let written = Arc::new(AtomicUsize::new(0));
    let (told, counted) = (stop.clone(), written.clone());
    thread::spawn(move || {
        while !told.load(Ordering::SeqCst) && writer.write_all(&[b'.'; 4_096]).is_ok() {
            counted.fetch_add(1, Ordering::SeqCst);
        }
    });
    let mut before = 0;
    loop {
        sleep(Duration::from_millis(100));
        let now = written.load(Ordering::SeqCst);
        if now > 0 && now == before {
            return stop;
        }
        before = now;
    }
}

#[test]
fn the_program_ends_when_nobody_reads_its_output() {
    for command in both_ways() {
        let mut child = start(command);
        drop(child.stdout.take());
        hand_chart(&mut child);
        must_end(&mut child, "its output was closed");
    }
}

#[test]
fn the_program_ends_when_a_full_pipe_is_closed() {
    for mut command in both_ways() {
        let (reader, writer) = pipe().expect("a pipe can be made");
        keep_full(writer.try_clone().expect("a pipe has more writers"));
        command.stdout(writer);
        let mut child = start(command);
        hand_chart(&mut child);
        sleep(Duration::from_millis(500));
        assert!(runs(&mut child), "the program ended though its output was not taken");
        drop(reader);
        must_end(&mut child, "its full output was closed");
    }
}

#[test]
fn a_full_pipe_that_is_read_at_last_has_the_whole_report() {
    let (mut reader, writer) = pipe().expect("a pipe can be made");
    let stop = keep_full(writer.try_clone().expect("a pipe has more writers"));
    let mut command = command();
    command.stdout(writer);
    let mut child = start(command);
    hand_chart(&mut child);
    sleep(Duration::from_millis(500));
    stop.store(true, Ordering::SeqCst);
    let mut taken = String::new();
    reader.read_to_string(&mut taken).expect("the pipe can be read");
    same(&taken.replace('.', ""), &chart());
    finish(child);
}

#[test]
fn the_program_ends_when_nothing_can_be_written() {
    for mut command in both_ways() {
        command.stdout(
            File::options()
                .write(true)
                .open("/dev/full")
                .expect("/dev/full is there"),
        );
        let mut child = start(command);
        hand_chart(&mut child);
        must_end(&mut child, "it got its input");
    }
}

#[test]
fn a_file_that_may_not_grow_has_a_beginning_of_the_report() {
    let whole = report(&chart());
    let path = Path::new(env!("CARGO_TARGET_TMPDIR")).join("cut-report");
    let mut command = command_after("trap '' XFSZ; ulimit -f 1");
    command.stdout(File::create(&path).expect("a file can be made"));
    let mut child = start(command);
    hand_chart(&mut child);
    must_end(&mut child, "it got its input");
    let left = fs::read_to_string(&path).expect("the file can be read");
    assert!(left.len() < whole.len(), "the file was not cut");
    assert!(whole.starts_with(&left), "not a beginning of the report: {left}");
}
