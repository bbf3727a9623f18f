//! That what holds the program to its reports lets no difference pass, and leaves out no case.

use reports::each::each;
use reports::folder::chart;
use reports::hold::{agrees, same, says};
use second::report::report;
use std::env;
use std::sync::atomic::{AtomicUsize, Ordering};

/// Holds a report with such a change to the report without it.
fn changed(change: fn(&mut Vec<u8>)) {
    let input = chart("loop");
    let mut printed = report(&input).into_bytes();
    change(&mut printed);
    same(&String::from_utf8(printed).expect("it is still ASCII"), &input);
}

#[test]
fn the_very_report_passes() {
    changed(|_| ());
}

#[test]
#[should_panic(expected = "line 1 is")]
fn another_first_byte_is_refused() {
    changed(|printed| printed[0] ^= 1);
}

#[test]
#[should_panic(expected = "the second program's")]
fn another_last_byte_is_refused() {
    changed(|printed| *printed.last_mut().expect("it has bytes") ^= 1);
}

#[test]
#[should_panic(expected = "the second program's")]
fn a_byte_less_is_refused() {
    changed(|printed| printed.truncate(printed.len() - 1));
}

#[test]
#[should_panic(expected = "the second program's")]
fn a_byte_more_is_refused() {
    changed(|printed| printed.push(b'\n'));
}

/// The only test here that runs a program, so that no other one gets this one.
#[test]
#[should_panic(expected = "line 1 is Some(\"\")")]
fn a_program_that_says_nothing_is_refused() {
    env::set_var("VEILBUZZ_PROGRAM", "cat");
    agrees(b"");
}

#[test]
#[should_panic(expected = "the second program, for the input")]
fn a_report_that_only_begins_as_the_text_is_refused() {
    let input = chart("loop");
    says(&input, report(&input).lines().next().expect("it has a line"));
}

#[test]
fn each_case_is_worked_on_once() {
    let times: Vec<AtomicUsize> = (0..1_000).map(AtomicUsize::new).collect();
    each(&times, |count| {
        count.fetch_add(1, Ordering::Relaxed);
    });
    let times: Vec<usize> = times.into_iter().map(AtomicUsize::into_inner).collect();
    assert_eq!(times, (1..=1_000).collect::<Vec<usize>>());
}

#[test]
#[should_panic(expected = "a scoped thread panicked")]
fn the_last_case_can_fail_alone() {
    let cases: Vec<usize> = (0..100).collect();
    each(&cases, |&case| assert!(case < 99, "the last one"));
}
