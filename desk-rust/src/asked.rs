//! What numbers there are: the proved writer is asked, so that no limit is written down a second time.

use crate::words::listed;
use veilbuzz::{chart_of, Fields, Heading};

/// A node that does nothing and leads nowhere.
pub const STEP: Fields = Fields {
    kind: 0,
    address: 0,
    size: 0,
    outs: 0,
    first: 0,
    second: 0,
};

/// So many bits has a number.
const BITS: u64 = 64;

/// A number of the cache's shape.
#[derive(Clone, Copy, Debug, PartialEq, Eq)]
pub enum Measure {
    Line,
    Sets,
    Ways,
}

/// A heading for one node, of a cache with lines of 2^`line` bytes.
fn plain(line: u64) -> Heading {
    Heading {
        line,
        sets: 0,
        ways: 1,
        start: 0,
        nodes: 1,
        entry: 0,
    }
}

fn accepted(heading: Heading) -> bool {
    chart_of(heading, &[STEP]).is_ok()
}

/// The shortest lines that there are, as an exponent.
fn shortest_line() -> u64 {
    let line = (0..BITS).find(|line| accepted(plain(*line)));
    line.expect("the writer accepts some length of lines")
}

/// Whether a cache can have this number of bytes in a line or of sets, as an exponent, or of ways.
pub fn can_be(measure: Measure, number: u64) -> bool {
    let plain = plain(shortest_line());
    accepted(match measure {
        Measure::Line => Heading { line: number, ..plain },
        Measure::Sets => Heading { sets: number, ..plain },
        Measure::Ways => Heading { ways: number, ..plain },
    })
}

/// All numbers of bytes in a line, of sets or of ways that there are.
pub fn allowed(measure: Measure) -> Vec<u64> {
    let can_be = |number: &u64| can_be(measure, *number);
    match measure {
        Measure::Line | Measure::Sets => (0..BITS).filter(can_be).map(|number| 1 << number).collect(),
        Measure::Ways => (0..BITS).filter(can_be).collect(),
    }
}

/// How many bytes a reference can have. The size code of each is its place in this list.
pub fn sizes() -> Vec<u64> {
    let read = |size| Fields { kind: 1, size, ..STEP };
    (0..BITS)
        .take_while(|size| chart_of(plain(shortest_line()), &[read(*size)]).is_ok())
        .map(|size| 1 << size)
        .collect()
}

/// Numbers in words, as `1, 2 or 4`.
pub fn one_of(numbers: &[u64]) -> String {
    let words: Vec<String> = numbers.iter().map(u64::to_string).collect();
    listed(&words, "or")
}
