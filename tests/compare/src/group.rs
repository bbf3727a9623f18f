use crate::given::Given;
use crate::same::Held;
use crate::settings::Settings;
use crate::shown::shown;
use crate::tally::{Tally, CHART};
use crate::trial::trial;
use crate::watch::Watch;
use crate::writing::hold_with;
use charts::random::Random;
use std::io::{stdout, Write};
use std::time::{Duration, Instant};

/// Charts that are gone through one after another, under one name, and what occurred.
pub struct Group {
    name: &'static str,
    pub random: Random,
    pub tally: Tally,
    watch: Watch,
}

/// How long a group may take. It is seconds on a machine of today.
const LIMIT: Duration = Duration::from_secs(240);

impl Group {
    pub fn of(name: &'static str) -> Group {
        Group {
            name,
            random: Random::new(Settings::from_environment().seed),
            tally: Tally::default(),
            watch: Watch::until(Instant::now() + LIMIT, format!("{name}, by their numbers")),
        }
    }

    /// One chart through everything.
    pub fn trial(&mut self, chart: &[u8]) {
        self.told(chart, trial);
    }

    /// One chart through something of one's own.
    pub fn hold(&mut self, chart: &[u8], work: impl FnOnce(&mut Random, &mut Tally, &[u8]) -> Held) {
        self.tally.add(CHART);
        self.told(chart, work);
    }

    /// What one chart is written from, to the writer, with room for it.
    pub fn write(&mut self, given: &Given) {
        let length = given.used() + self.random.below(4) as usize;
        self.write_to(given, length);
    }

    /// The same with a buffer of such a length.
    pub fn write_to(&mut self, given: &Given, length: usize) {
        self.tally.add(CHART);
        self.watch.now(self.tally.charts());
        if let Err(words) = hold_with(&mut self.random, &mut self.tally, given, length) {
            panic!("{}: {words}", self.name);
        }
    }

    fn told(&mut self, chart: &[u8], work: impl FnOnce(&mut Random, &mut Tally, &[u8]) -> Held) {
        self.watch.now(self.tally.charts());
        if let Err(words) = work(&mut self.random, &mut self.tally, chart) {
            panic!("{}: {words}\nof {}", self.name, shown(chart));
        }
    }

    /// Says how many charts there were.
    pub fn end(self) -> Tally {
        self.watch.end();
        // not by println, which the harness keeps back where a test passes
        writeln!(stdout(), "{}: {}", self.name, self.tally.words()).expect("standard output is open");
        self.tally
    }
}
