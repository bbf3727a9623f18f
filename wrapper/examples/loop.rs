//! The loop of docs/RULES.md, read, analysed, checked and totalled: a step, a read that loops on itself, a read of the same line, from an
//! empty cache.
//!
//!     VEILBUZZ_ARCHIVE=$(tests/archive) cargo run --manifest-path tests/Cargo.toml -p veilbuzz --example loop

use std::process::exit;
use veilbuzz::{analyse, check, read, total, Bounds, Buffers, Class, Costs, Refusal, Table, PASSES, TOUCHES};

#[rustfmt::skip]
const CHART: [u8; 32] = [
    0x01, 0x40, 0x24, 0x00, 0x00, 0x30, 0x00, 0x00,
    0x00, 0x00, 0x00, 0x00, 0x10, 0x01, 0x00, 0x00,
    0x40, 0x00, 0x00, 0x00, 0x20, 0x01, 0x00, 0x20,
    0x40, 0x00, 0x00, 0x00, 0x00, 0x00, 0x00, 0x00,
];

fn print() -> Result<(), Refusal> {
    let header = read(&CHART)?;
    let ages = header.nodes * header.blocks;
    let mut blocks = vec![0; header.blocks];
    let (mut must, mut may) = (vec![0; ages], vec![0; ages]);
    let (mut marks, mut classes) = (vec![0; header.nodes], vec![0; TOUCHES * header.nodes]);
    let lent = Buffers {
        blocks: &mut blocks,
        must: &mut must,
        may: &mut may,
        marks: &mut marks,
        classes: &mut classes,
    };
    let settled = analyse(&CHART, PASSES, lent)?;
    println!(
        "nodes {} blocks {} passes {}",
        header.nodes, settled.blocks, settled.passes
    );
    for (node, both) in classes.chunks(TOUCHES).enumerate() {
        let [first, second] =
            [both[0], both[1]].map(|class| Class::of(class).expect("the analysis writes classes 0 to 5"));
        println!("{node} {first} {second}");
    }

    let table = Table {
        must: &must,
        may: &may,
        marks: &marks,
    };
    println!("the table passes: {}", check(&CHART, table)?);

    // the loop turns ten times at most
    let bounds = Bounds {
        floors: &[1, 1, 1],
        ceilings: &[1, 10, 1],
    };
    let totals = total(&CHART, table, Costs { hit: 1, miss: 10 }, bounds)?;
    println!("totals {} and {}", totals.low, totals.high);
    Ok(())
}

fn main() {
    if let Err(refusal) = print() {
        eprintln!("{refusal}");
        exit(1);
    }
}
