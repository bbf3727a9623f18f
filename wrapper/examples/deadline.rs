//! Are power on and ten hauls of the winch done within 120 microseconds, at 8 MHz? In the cache as it is built, and with sets and ways swapped.
//!
//!     VEILBUZZ_ARCHIVE=$(tests/archive) cargo run --manifest-path tests/Cargo.toml -p veilbuzz --example deadline

use std::process::exit;
use veilbuzz::{deadline, Analysis, Bounds, ClockSheet, Costs, Deadline, Judged, Refusal};

const AS_BUILT: &[u8] = include_bytes!("../../charts/winch-as-built.chart");
const SWAPPED: &[u8] = include_bytes!("../../charts/winch-swapped.chart");

/// How often a walk comes to each node: each turn of the loop, which is nodes 8 to 18, sees rock.
const VISITS: [u16; 20] = [1, 1, 1, 1, 1, 1, 1, 1, 10, 10, 10, 0, 0, 0, 10, 10, 10, 10, 10, 0];

/// In cycles.
const COSTS: Costs = Costs { hit: 1, miss: 20 };

/// 8 MHz is a period of 0.125 microseconds, a power of two: no product is rounded, and here no sum is either, so each figure is exact.
const SHEET: ClockSheet = ClockSheet {
    period: 0.125,
    overhead: 2.0,
};

const LATEST: f64 = 120.0;

fn judge(chart: &[u8], analysis: &Analysis, limits: Deadline) -> Result<Judged, Refusal> {
    let bounds = Bounds {
        floors: &VISITS,
        ceilings: &VISITS,
    };
    deadline(chart, analysis.table(), COSTS, bounds, SHEET, limits)
}

fn print() -> Result<(), Refusal> {
    for (name, chart) in [("as built", AS_BUILT), ("swapped", SWAPPED)] {
        let analysis = Analysis::of(chart)?;
        let Judged { met, low, high } = judge(chart, &analysis, Deadline::Latest(LATEST))?;
        let (sets, ways) = (1 << analysis.header.sets, analysis.header.ways);
        let verdict = if met { "is met" } else { "is not met" };
        println!("{name}, {sets} sets of {ways} ways: {low:.3} to {high:.3} us, {LATEST} us {verdict}");
    }

    let (earliest, latest) = (LATEST, 0.0);
    let answer = judge(
        AS_BUILT,
        &Analysis::of(AS_BUILT)?,
        Deadline::Window { earliest, latest },
    );
    if let Err(refusal) = answer {
        let Refusal { number, place } = refusal;
        println!("from {earliest} to {latest} us: refused {number} at {place}");
        for words in [refusal.found(), refusal.mend()].into_iter().flatten() {
            println!("  {words}");
        }
    }
    Ok(())
}

fn main() {
    if let Err(refusal) = print() {
        eprintln!("{refusal}");
        exit(1);
    }
}
