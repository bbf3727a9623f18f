//! Inputs that are no charts, or that come as no chart does: any bytes, bytes without an end, bytes after long pauses.

use charts::random::Random;
use charts::Chart;
use reports::each::each;
use reports::hold::{agrees, same};
use reports::program::{command, command_after, ends, finish, hand, runs, start};
use second::limits::{LONGEST, NODES};
use second::report::{report, INPUT};
use std::fs::File;
use std::io::{Read, Write};
use std::process::{Command, Stdio};
use std::thread::{self, sleep};
use std::time::Duration;

/// Random bytes of a seed.
fn noise(seed: u64, size: usize) -> Vec<u8> {
    let mut random = Random::new(seed);
    (0..size).map(|_| random.below(256) as u8).collect()
}

#[test]
fn a_single_byte_is_refused_whatever_it_is() {
    each(&[0, 1, 2, 10, 127, 128, 255], |&byte| agrees(&[byte]));
}

#[test]
fn random_bytes_get_the_second_programs_answer() {
    let sizes = [2, 7, 8, 9, 16, 100, LONGEST - 1, LONGEST, INPUT, 2 * INPUT];
    each(&sizes, |&size| agrees(&noise(size as u64, size)));
}

#[test]
fn random_bytes_behind_a_right_header_get_the_second_programs_answer() {
    each(&[1, 2, 3, 16, NODES - 1, NODES], |&nodes| {
        let mut bytes = Chart::steps(nodes).bytes();
        let size = bytes.len();
        bytes[8..].copy_from_slice(&noise(nodes as u64, size - 8));
        agrees(&bytes);
    });
}

#[test]
fn an_input_without_an_end_is_answered_by_its_first_bytes() {
    for begins in [Chart::steps(NODES).bytes(), Chart::sample().bytes(), Vec::new()] {
        let mut child = start(command());
        hand(&mut child, &begins);
        let mut input = child.stdin.take().expect("standard input is open");
        let endless = thread::spawn(move || while input.write_all(&[0; 4_096]).is_ok() {});
        assert!(
            ends(&mut child).is_some(),
            "the program does not end on zeros without an end"
        );
        let mut taken = begins;
        taken.resize(INPUT, 0);
        same(&finish(child), &taken);
        endless.join().expect("nobody takes the zeros any more");
    }
}

#[test]
fn the_endless_sources_of_the_machine_get_an_answer() {
    let mut zeros = command();
    zeros.stdin(File::open("/dev/zero").expect("/dev/zero is there"));
    let mut child = start(zeros);
    assert!(ends(&mut child).is_some(), "the program does not end on /dev/zero");
    same(&finish(child), &[0; INPUT]);

    let mut yes = Command::new("yes")
        .stdout(Stdio::piped())
        .spawn()
        .expect("there is a program yes");
    let mut ayes = command();
    ayes.stdin(yes.stdout.take().expect("its output is piped"));
    let mut child = start(ayes);
    assert!(ends(&mut child).is_some(), "the program does not end on what yes says");
    same(&finish(child), &b"y\n".repeat(INPUT)[..INPUT]);
    yes.wait().expect("yes ends when nobody reads it");
}

#[test]
fn pauses_change_nothing_and_get_no_answer_before_the_end() {
    let mut broken = Chart::sample();
    broken.records[1].size = 3;
    each(&[Chart::sample().bytes(), broken.bytes()], |bytes| {
        let mut child = start(command());
        for part in [&bytes[..0], &bytes[..3], &bytes[3..8], &bytes[8..21], &bytes[21..]] {
            hand(&mut child, part);
            sleep(Duration::from_millis(400));
            assert!(runs(&mut child), "the program did not wait for the end of its input");
        }
        same(&finish(child), bytes);
    });
}

#[test]
fn a_program_with_no_output_or_no_stream_at_all_ends() {
    for closed in ["exec >&-", "exec <&- >&-", "exec 2>&-", "exec <&- >&- 2>&-"] {
        let mut child = start(command_after(closed));
        hand(&mut child, &Chart::sample().bytes());
        drop(child.stdin.take());
        assert!(ends(&mut child).is_some(), "the program does not end after '{closed}'");
    }
}

#[test]
fn a_reader_that_takes_a_few_bytes_and_goes_gets_a_beginning_of_the_report() {
    let chart = Chart::steps(NODES).bytes();
    let mut child = start(command());
    hand(&mut child, &chart);
    drop(child.stdin.take());
    let mut few = [0; 20];
    let mut output = child.stdout.take().expect("its output is piped");
    output.read_exact(&mut few).expect("the program writes more than that");
    drop(output);
    assert!(
        ends(&mut child).is_some(),
        "the program does not end when its reader goes"
    );
    assert!(report(&chart).as_bytes().starts_with(&few));
}
