use std::array::from_fn;
use std::time::{Duration, Instant};

/// Short, so that on a machine with other work some readings fall between its turns.
const READING: Duration = Duration::from_micros(500);
const READINGS: usize = 20;
const BUDGET: Duration = Duration::from_secs(1);

/// The readings of some jobs that tell their own time. They take turns, so that what else the machine does falls on all of them.
pub fn turns<const JOBS: usize>(mut jobs: [impl FnMut() -> Duration; JOBS]) -> Vec<[Duration; JOBS]> {
    let times = jobs.iter_mut().map(repeats).min().expect("there are jobs");
    let mut readings = Vec::new();
    let start = Instant::now();
    while readings.len() < READINGS || start.elapsed() < BUDGET {
        readings.push(jobs.each_mut().map(|job| reading(job, times)));
    }
    readings
}

/// The best reading of each, in microseconds.
pub fn best<const JOBS: usize>(readings: &[[Duration; JOBS]]) -> [f64; JOBS] {
    from_fn(|whose| {
        let times = readings.iter().map(|turn| turn[whose]);
        times.min().expect("there are readings").as_secs_f64() * 1e6
    })
}

/// How many times another's time the first takes: the middle one of all turns, so that a slow stretch of the machine counts for little.
pub fn middle<const JOBS: usize>(readings: &[[Duration; JOBS]], other: usize) -> f64 {
    let mut ratios: Vec<f64> = readings
        .iter()
        .map(|turn| turn[0].as_secs_f64() / turn[other].as_secs_f64())
        .collect();
    ratios.sort_by(f64::total_cmp);
    ratios[ratios.len() / 2]
}

/// How often a job is to be done for one reading.
fn repeats(job: &mut impl FnMut() -> Duration) -> u32 {
    let once = reading(job, 3).max(Duration::from_nanos(1));
    READING.as_nanos().div_ceil(once.as_nanos()) as u32
}

/// The time of one job, from doing it so many times.
fn reading(job: &mut impl FnMut() -> Duration, times: u32) -> Duration {
    (0..times).map(|_| job()).sum::<Duration>() / times
}
