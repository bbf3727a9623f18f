//! The examples are built and run, and print what they should.

use std::process::Command;

/// What an example prints.
fn printed(example: &str) -> String {
    let mut cargo = Command::new(env!("CARGO"));
    cargo
        .args([
            "run",
            "--quiet",
            "--offline",
            "--locked",
            "--example",
            example,
            "--manifest-path",
        ])
        .arg(concat!(env!("CARGO_MANIFEST_DIR"), "/Cargo.toml"));
    if !cfg!(debug_assertions) {
        cargo.arg("--release");
    }
    let output = cargo.output().expect("cargo starts");
    assert!(
        output.status.success(),
        "{}: {}",
        output.status,
        String::from_utf8_lossy(&output.stderr)
    );
    String::from_utf8_lossy(&output.stdout).into()
}

#[test]
fn the_short_way_prints_the_classes_of_the_loop() {
    assert_eq!(printed("short"), "0 none none\n1 kept none\n2 hit none\n");
}

#[test]
fn the_loop_prints_its_classes_and_its_totals() {
    // sections 14 and 10 of the rules
    assert_eq!(
        printed("loop"),
        "nodes 3 blocks 1 passes 2\n0 none none\n1 kept none\n2 hit none\nthe table passes: true\ntotals 2 and 20\n"
    );
}

#[test]
fn a_chart_that_is_made_prints_what_the_c_example_prints() {
    assert_eq!(printed("make"), include_str!("../../examples/make.stdout"));
}

#[test]
fn the_deadline_prints_what_the_c_example_prints() {
    // the C example has the bytes of the two charts in itself
    assert_eq!(printed("deadline"), include_str!("../../examples/deadline.stdout"));
}

#[test]
fn the_bound_prints_what_the_c_example_prints() {
    assert_eq!(printed("bound"), include_str!("../../examples/bound.stdout"));
}
