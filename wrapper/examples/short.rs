//! The short way: what is known of the touches of each node of a chart, or in words why it is refused.
//!
//!     VEILBUZZ_ARCHIVE=$(tests/archive) cargo run --manifest-path tests/Cargo.toml -p veilbuzz --example short

use std::process::exit;
use veilbuzz::Analysis;

const CHART: &[u8] = include_bytes!("../../charts/loop.chart");

fn main() {
    let analysis = Analysis::of(CHART).unwrap_or_else(|refusal| {
        eprintln!("{refusal}");
        exit(1)
    });
    for (node, [first, second]) in analysis.classes.iter().enumerate() {
        println!("{node} {first} {second}");
    }
}
