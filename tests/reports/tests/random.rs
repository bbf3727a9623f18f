//! Random charts, whole and damaged: the program's report of each is the second program's.

use charts::random::Random;
use charts::random_charts::{damaged, whole};
use reports::each::each;
use reports::hold::agrees;
use second::report::report;
use std::env;

/// Each chart is one run of the program, so the number decides how long this takes: a few seconds.
const CHARTS: u64 = 2_000;

/// The first seed. Another one: VEILBUZZ_SEED=7 cargo test --manifest-path tests/Cargo.toml -p reports --test random.
fn first_seed() -> u64 {
    match env::var("VEILBUZZ_SEED") {
        Ok(text) => text.parse().expect("VEILBUZZ_SEED is a number"),
        Err(_) => 20_250_101,
    }
}

/// The input of a seed.
fn input(seed: u64) -> Vec<u8> {
    let mut random = Random::new(seed);
    let chart = whole(&mut random);
    damaged(&mut random, chart)
}

fn seeds() -> Vec<u64> {
    (0..CHARTS).map(|n| first_seed().wrapping_add(n)).collect()
}

/// Says which seed is at fault if a panic passes by.
struct Seed(u64);

impl Drop for Seed {
    fn drop(&mut self) {
        if std::thread::panicking() {
            eprintln!(
                "the seed at fault is {0}: VEILBUZZ_SEED={0} has it again, as its first chart",
                self.0
            );
        }
    }
}

#[test]
fn the_program_and_the_second_program_agree_on_random_charts() {
    each(&seeds(), |&seed| {
        let _named = Seed(seed);
        agrees(&input(seed));
    });
}

/// So that the test above is not an idle one: what the second program says of these charts.
#[test]
fn the_random_charts_meet_every_refusal_and_every_word_often_enough() {
    let reports: Vec<String> = seeds().into_iter().map(|seed| report(&input(seed))).collect();
    let met = |least: usize, what: String, has: &dyn Fn(&str) -> bool| {
        let times = reports.iter().filter(|report| has(report)).count();
        assert!(times >= least, "only {times} of {CHARTS} reports have {what}");
    };
    for number in 1..=10 {
        let begins = format!("refused {number} at ");
        met(20, format!("refusal {number}"), &|report| report.starts_with(&begins));
    }
    for word in ["unreached", "hit", "miss", "unsure", "none", "kept"] {
        let (first, second) = (format!(" {word} "), format!(" {word}\n"));
        met(150, format!("the first word {word}"), &|report| report.contains(&first));
        met(60, format!("the second word {word}"), &|report| {
            report.contains(&second)
        });
    }
    for passes in [1, 2, 3, 4, 5, 6, 7, 8] {
        let ends = format!(" passes {passes}\n");
        met(10, format!("{passes} passes"), &|report| report.contains(&ends));
    }
}
