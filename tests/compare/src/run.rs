//! Many random charts, on all processors, until they are done or the time is.

use crate::draw;
use crate::given::Given;
use crate::given_drawn;
use crate::same::Held;
use crate::settings::{Settings, LEAST};
use crate::shown::shown;
use crate::tally::Tally;
use crate::trial::trial;
use crate::watch::Watch;
use charts::random::Random;
use std::panic::{catch_unwind, AssertUnwindSafe};
use std::sync::atomic::{AtomicBool, AtomicU64, Ordering};
use std::sync::Mutex;
use std::thread;
use std::time::{Duration, Instant};

/// How long a chart that is under way at the end may take.
const GRACE: Duration = Duration::from_secs(60);

/// The chart of a seed through everything, and what another is written from through the writer.
fn one(seed: u64, tally: &mut Tally) -> Held {
    let mut random = Random::new(seed);
    let chart = draw::chart(&mut random);
    caught(|| trial(&mut random, tally, &chart)).map_err(|words| format!("{words}\nof {}", shown(&chart)))?;
    let whole = Given::of_chart(&draw::whole(&mut random));
    caught(|| given_drawn::trial(&mut random, tally, &whole))
}

/// What work comes to, also if it panics.
fn caught(work: impl FnOnce() -> Held) -> Held {
    catch_unwind(AssertUnwindSafe(work)).unwrap_or_else(|_| Err("a panic, told above".into()))
}

/// Compares charts from the first seed on. What occurred, or words for the first difference that was found.
pub fn run(settings: Settings) -> Held<Tally> {
    let last = Instant::now() + Duration::from_secs(settings.seconds);
    let charts = settings.charts.unwrap_or(LEAST);
    let next = AtomicU64::new(0);
    let stopped = AtomicBool::new(false);
    let difference = Mutex::new(None);
    let whole = Mutex::new(Tally::default());
    let watch = Watch::until(last + GRACE, "random charts, by their own seeds".into());
    let work = || {
        let mut tally = Tally::default();
        while !stopped.load(Ordering::Relaxed) && Instant::now() < last {
            let index = next.fetch_add(1, Ordering::Relaxed);
            if charts > 0 && index >= charts {
                break;
            }
            let seed = settings.seed.wrapping_add(index);
            watch.now(seed);
            if let Err(words) = one(seed, &mut tally) {
                stopped.store(true, Ordering::Relaxed);
                let words = format!("seed {}, chart {index}: {words}\n{}", settings.seed, again(seed));
                difference.lock().expect("no panic").get_or_insert(words);
            }
        }
        whole.lock().expect("no panic").merge(tally);
    };
    thread::scope(|scope| {
        for _ in 0..thread::available_parallelism().map_or(1, usize::from) {
            scope.spawn(work);
        }
    });
    watch.end();
    match difference.into_inner().expect("no panic") {
        Some(words) => Err(words),
        None => Ok(whole.into_inner().expect("no panic")),
    }
}

/// How to have a chart again.
fn again(seed: u64) -> String {
    format!(
        "again: VEILBUZZ_SEED={seed} VEILBUZZ_CHARTS=1 \
         cargo test --manifest-path tests/Cargo.toml --offline --release -p compare --test all random::"
    )
}
