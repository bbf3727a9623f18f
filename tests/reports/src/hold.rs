//! Holding the program to what is expected of it.

use crate::program::run;
use second::report::{report, INPUT};

/// An input for a failure's message: its size, and the bytes that the program takes as digits for `xxd -r -p`.
fn shown(input: &[u8]) -> String {
    let taken = &input[..input.len().min(INPUT)];
    let digits: String = taken.iter().map(|byte| format!("{byte:02x}")).collect();
    format!("for the input of {} bytes, {digits}", input.len())
}

/// Holds the program to the second program's report.
pub fn agrees(input: &[u8]) {
    same(&run(input), input);
}

/// Holds what the program printed for an input to the second program's report, and names the first line that differs.
pub fn same(printed: &str, input: &[u8]) {
    let report = report(input);
    if printed == report {
        return;
    }
    let lines = |text: &str| -> Vec<String> { text.split('\n').map(String::from).collect() };
    let (ours, second) = (lines(printed), lines(&report));
    let line = ours.iter().zip(&second).take_while(|(a, b)| a == b).count();
    panic!(
        "line {} is {:?}, the second program's {:?}, {}",
        line + 1,
        ours.get(line),
        second.get(line),
        shown(input)
    );
}

/// Holds both programs to a report that a test has from the rules themselves, its last line feed left out.
pub fn says(input: &[u8], text: &str) {
    assert_eq!(
        report(input),
        format!("{text}\n"),
        "the second program, {}",
        shown(input)
    );
    agrees(input);
}

/// Holds both programs to accepting a chart, with these counts, and to one report of it.
pub fn accepts(input: &[u8], nodes: usize, blocks: usize) {
    let begins = format!("nodes {nodes} blocks {blocks} passes ");
    let report = report(input);
    assert!(
        report.starts_with(&begins),
        "the second program does not say '{begins}' but '{report}', {}",
        shown(input)
    );
    agrees(input);
}
