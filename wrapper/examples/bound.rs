//! What does a loop of ten turns cost at most, if each turn goes left or right and never both ways? By ceilings, which pay both sides in full,
//! and by a fact of both with a certificate.
//!
//!     VEILBUZZ_ARCHIVE=$(tests/archive) cargo run --manifest-path tests/Cargo.toml -p veilbuzz --example bound

use std::process::exit;
use veilbuzz::{bound, total, Analysis, Bounds, Certificate, Costs, Facts, Refusal, Side};

/// Its nodes are head, fork, left, right, tail and after.
const CHART: &[u8] = include_bytes!("../../charts/branch.chart");

const COSTS: Costs = Costs { hit: 1, miss: 10 };

const BOUNDS: Bounds = Bounds {
    floors: &[11, 10, 0, 0, 10, 1],
    ceilings: &[11, 10, 10, 10, 10, 1],
};

/// left + right <= 10.
const FACTS: Facts = Facts {
    coefficients: &[0, 0, 1, 1, 0, 0],
    limits: &[10],
};

/// A turn makes three touches, and the fact counts one for each turn: so its multiplier is 3. With 3 less at left and at right a turn is left
/// with 1 + 0 - 2 + 1, nothing; and the potentials are what a walk is left with where it has come to, however many turns it has made.
const POTENTIALS: [i64; 6] = [1, 1, -1, -1, 0, 2];

fn certificate(potentials: &[i64]) -> Certificate<'_> {
    Certificate {
        multipliers: &[3],
        potentials,
        denominator: 1,
    }
}

fn print() -> Result<(), Refusal> {
    let analysis = Analysis::of(CHART)?;
    let totals = total(CHART, analysis.table(), COSTS, BOUNDS)?;
    println!("by the ceiling of each node: a walk costs no more than {}", totals.high);

    let high = |potentials: &[i64]| {
        let certificate = certificate(potentials);
        bound(CHART, analysis.table(), COSTS, Side::High, FACTS, certificate)
    };
    // 32 touches, the largest potential and 3 * 10, and four first loads of 9
    let high_bound = high(&POTENTIALS)?;
    println!("left and right no more than 10 times together: no more than {high_bound}");

    let mut too_small = POTENTIALS;
    too_small[4] -= 1;
    if let Err(refusal) = high(&too_small) {
        let Refusal { number, place } = refusal;
        println!("the potential of tail one too small: refused {number} at {place}");
        for words in [refusal.found(), refusal.mend()].into_iter().flatten() {
            println!("  {words}");
        }
    }
    Ok(())
}

fn main() {
    if let Err(refusal) = print() {
        eprintln!("{refusal}");
        exit(1);
    }
}
