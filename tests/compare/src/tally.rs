use std::collections::BTreeMap;
use std::ops::RangeInclusive;

/// How often each kind of thing occurred. A kind is a word and a number, as "nodes" and 17.
#[derive(Default)]
pub struct Tally(BTreeMap<(&'static str, usize), u64>);

impl Tally {
    pub fn add(&mut self, word: &'static str) {
        self.at(word, 0);
    }

    pub fn at(&mut self, word: &'static str, number: usize) {
        *self.0.entry((word, number)).or_default() += 1;
    }

    /// Counts the word if it is the case.
    pub fn add_if(&mut self, truth: bool, word: &'static str) {
        if truth {
            self.add(word);
        }
    }

    pub fn count(&self, word: &'static str, number: usize) -> u64 {
        self.0.get(&(word, number)).copied().unwrap_or(0)
    }

    pub fn merge(&mut self, other: Tally) {
        for (kind, count) in other.0 {
            *self.0.entry(kind).or_default() += count;
        }
    }

    /// A word has to have occurred so often.
    pub fn expect(&self, word: &'static str, least: u64) {
        self.expect_each(word, 0..=0, least);
    }

    /// Each of these numbers has to have occurred so often with a word.
    pub fn expect_each(&self, word: &'static str, numbers: RangeInclusive<usize>, least: u64) {
        for number in numbers {
            let count = self.count(word, number);
            assert!(
                count >= least,
                "'{word} {number}' occurred {count} times, and {least} are the least"
            );
        }
    }

    pub fn charts(&self) -> u64 {
        self.count(CHART, 0)
    }

    /// The numbers of charts and of answers, in words.
    pub fn words(&self) -> String {
        let (charts, answers) = (self.charts(), self.count(ANSWER, 0));
        let plural = if charts == 1 { "" } else { "s" };
        format!("{charts} chart{plural} and {answers} answers compared")
    }
}

/// A chart that was compared.
pub const CHART: &str = "chart";

/// An answer of the archive that was compared.
pub const ANSWER: &str = "answer";
