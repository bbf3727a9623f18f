//! Makes the loop of docs/RULES.md from its fields, prints its bytes, and then its report as the program prints it.
//!
//!     VEILBUZZ_ARCHIVE=$(tests/archive) cargo run --manifest-path tests/Cargo.toml -p veilbuzz --example make

use std::process::exit;
use veilbuzz::{chart_of, Analysis, Fields, Heading, Refusal, Start};

/// A bare step that leads nowhere.
const STEP: Fields = Fields {
    kind: 0,
    address: 0,
    size: 0,
    outs: 0,
    first: 0,
    second: 0,
};

/// A read of the byte at 0 that leads nowhere.
const READ: Fields = Fields { kind: 1, ..STEP };

#[rustfmt::skip]
const NODES: [Fields; 3] = [
    Fields { outs: 1, first: 1, ..STEP },
    Fields { outs: 2, first: 1, second: 2, ..READ },
    READ,
];

fn print() -> Result<(), Refusal> {
    // 16-byte lines, one set of two ways
    let heading = Heading {
        line: 4,
        sets: 0,
        ways: 2,
        start: Start::Empty as u64,
        nodes: NODES.len() as u64,
        entry: 0,
    };
    let chart = chart_of(heading, &NODES)?;
    for row in chart.chunks(8) {
        let digits: String = row.iter().map(|byte| format!("{byte:02X}")).collect();
        println!("{digits}");
    }

    let analysis = Analysis::of(&chart)?;
    println!(
        "nodes {} blocks {} passes {}",
        analysis.header.nodes,
        analysis.blocks.len(),
        analysis.passes
    );
    for (node, [first, second]) in analysis.classes.iter().enumerate() {
        println!("{node} {first} {second}");
    }
    Ok(())
}

fn main() {
    if let Err(refusal) = print() {
        eprintln!("{refusal}");
        exit(1);
    }
}
