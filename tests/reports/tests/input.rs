//! How the program takes its input.

use charts::Chart;
use reports::each::each;
use reports::hold::{same, says};
use reports::program::{command, command_after, ends, file, finish, hand, run, start};
use second::limits::{LONGEST, NODES};
use second::report::INPUT;
use std::fs::File;
use std::thread::sleep;
use std::time::Duration;

/// The longest chart, with zeros after it up to a size.
fn longest(size: usize) -> Vec<u8> {
    let mut bytes = Chart::steps(NODES).bytes();
    bytes.resize(size, 0);
    bytes
}

#[test]
fn an_input_longer_than_any_chart_is_answered_by_its_first_bytes() {
    each(
        &[
            INPUT,
            INPUT + 1,
            INPUT + 7,
            2 * INPUT - 18,
            3 * INPUT - 18,
            3 * INPUT - 17,
            70_000,
            1_000_000,
        ],
        |&size| {
            says(&longest(size), "refused 8 at 0");
        },
    );
}

#[test]
fn a_longer_input_is_still_held_to_its_header_first() {
    let mut bytes = longest(5 * LONGEST);
    bytes[0] = 2;
    says(&bytes, "refused 2 at 0");
    says(&Chart::steps(NODES + 1).bytes(), "refused 5 at 0");
}

#[test]
fn what_stands_past_the_bytes_that_are_taken_changes_nothing() {
    let mut bytes = longest(2 * INPUT);
    bytes[INPUT..].fill(255);
    says(&bytes, "refused 8 at 0");
}

#[test]
fn an_input_that_comes_in_single_bytes_is_read_whole() {
    let mut broken = Chart::sample();
    broken.records[2].size = 3;
    let cases = [
        Chart::sample().bytes(),
        broken.bytes(),
        Chart::sample().bytes()[..31].to_vec(),
        Chart::sample().bytes()[..7].to_vec(),
    ];
    each(&cases, |bytes| {
        let mut child = start(command());
        for byte in bytes {
            sleep(Duration::from_millis(5));
            hand(&mut child, &[*byte]);
        }
        sleep(Duration::from_millis(50));
        same(&finish(child), bytes);
    });
}

#[test]
fn an_input_that_comes_in_uneven_parts_is_read_whole() {
    each(&[LONGEST, INPUT], |&size| {
        let mut child = start(command());
        for part in longest(size).chunks(97) {
            sleep(Duration::from_millis(2));
            hand(&mut child, part);
        }
        same(&finish(child), &longest(size));
    });
}

#[test]
fn an_input_closed_at_once_is_no_bytes() {
    assert_eq!(run(b""), "refused 1 at 0\n");
    assert_eq!(finish(start(command())), "refused 1 at 0\n");
}

#[test]
fn an_input_that_is_not_open_is_no_bytes() {
    let child = start(command_after("exec <&-"));
    assert_eq!(finish(child), "refused 1 at 0\n");
}

#[test]
fn the_program_answers_after_the_bytes_that_it_takes_though_the_input_stays_open() {
    let mut child = start(command());
    hand(&mut child, &longest(INPUT));
    assert!(
        ends(&mut child).is_some(),
        "the program waits for more than {INPUT} bytes"
    );
    assert_eq!(finish(child), "refused 8 at 0\n");
}

#[test]
fn a_read_that_fails_ends_the_input() {
    let folder = File::open(file("charts")).expect("the folder charts/ is there");
    let mut command = command();
    command.stdin(folder);
    assert_eq!(finish(start(command)), "refused 1 at 0\n");
}
