use std::env;
use std::str::FromStr;

/// How many charts one gate run has to compare.
pub const LEAST: u64 = 200_000;

/// What a run of random charts is told by its environment.
#[derive(Clone, Copy, Debug)]
pub struct Settings {
    /// VEILBUZZ_SEED: the first chart's seed. The next chart has the next number.
    pub seed: u64,
    /// VEILBUZZ_CHARTS, if it is set: how many charts; 0 for as many as there is time for.
    pub charts: Option<u64>,
    /// VEILBUZZ_SECONDS: when to stop.
    pub seconds: u64,
}

impl Settings {
    pub fn from_environment() -> Settings {
        Settings {
            seed: number("VEILBUZZ_SEED").unwrap_or(20_260_101),
            charts: number("VEILBUZZ_CHARTS"),
            seconds: number("VEILBUZZ_SECONDS").unwrap_or(240),
        }
    }
}

fn number<T: FromStr>(name: &str) -> Option<T> {
    let text = env::var(name).ok()?;
    let number = text.parse();
    Some(number.unwrap_or_else(|_| panic!("{name} is a number, not '{text}'")))
}
