//! The loop of docs/RULES.md and its report (section 14 there), whole and letter for letter.

use reports::program::run;
use reports::tree::text;

const CHART: [u8; 32] = [
    0x01, 0x40, 0x24, 0x00, 0x00, 0x30, 0x00, 0x00, //
    0x00, 0x00, 0x00, 0x00, 0x10, 0x01, 0x00, 0x00, //
    0x40, 0x00, 0x00, 0x00, 0x20, 0x01, 0x00, 0x20, //
    0x40, 0x00, 0x00, 0x00, 0x00, 0x00, 0x00, 0x00,
];

const REPORT: &str = "nodes 3 blocks 1 passes 2\n\
                      0 none none\n\
                      1 kept none\n\
                      2 hit none\n";

/// The bytes and the report that the page shows. Behind the eight bytes of a line stands what they are.
fn shown() -> (Vec<u8>, String) {
    let page = text("docs/RULES.md");
    let (_, section) = page.split_once("\n## 14. Report\n").expect("there is a section 14");
    let (section, _) = section.split_once("\n## ").expect("it ends");
    let (_, example) = section.split_once("and its report:\n\n").expect("it has an example");
    let (bytes, report) = example.split_once("\n\n").expect("the bytes end");
    let byte = |word| u8::from_str_radix(word, 16).expect("it is a byte");
    let bytes = bytes.lines().flat_map(|line| line.split_whitespace().take(8)).map(byte);
    let report = report.lines().map_while(|line| line.strip_prefix("    "));
    (bytes.collect(), report.map(|line| format!("{line}\n")).collect())
}

#[test]
fn the_program_prints_the_report_of_section_14() {
    assert_eq!(shown(), (CHART.to_vec(), REPORT.to_string()));
    assert_eq!(run(&CHART), REPORT);
}

#[test]
fn a_refusal_is_one_line() {
    let mut broken = CHART;
    broken[31] = 3;
    assert_eq!(run(&broken), "refused 9 at 2\n");
}
