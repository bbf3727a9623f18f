//! Bytes of every small length, and of every length around a chart's own.

use charts::Chart;
use compare::ask::READ;
use compare::group::Group;
use second::limits::{LONGEST, NODES};

/// The bytes cut, or filled up with zeros.
fn of_length(bytes: &[u8], length: usize) -> Vec<u8> {
    let mut bytes = bytes.to_vec();
    bytes.resize(length, 0);
    bytes
}

#[test]
fn every_length_to_64_of_anything() {
    let mut group = Group::of("small lengths");
    let noise: Vec<u8> = (0..64).map(|_| group.random.below(256) as u8).collect();
    for nodes in 0..8 {
        let chart = Chart::steps(nodes).bytes();
        for length in 0..=64 {
            group.trial(&of_length(&chart, length));
        }
    }
    for length in 0..=64 {
        group.trial(&noise[..length]);
        group.trial(&vec![0; length]);
        group.trial(&vec![0xFF; length]);
    }
    let tally = group.end();
    tally.expect_each(READ, 0..=2, 7);
    tally.expect_each(READ, 8..=8, 300);
}

#[test]
fn every_length_around_a_charts_own() {
    let mut group = Group::of("lengths around a chart's own");
    for nodes in (1..=NODES).filter(|nodes| nodes % 15 <= 1 || *nodes > NODES - 6) {
        let chart = Chart::steps(nodes).bytes();
        for length in chart.len().saturating_sub(17)..=chart.len() + 17 {
            group.trial(&of_length(&chart, length));
        }
        for length in [LONGEST, LONGEST + 1, 2 * LONGEST, 1 << 16] {
            group.trial(&of_length(&chart, length));
        }
    }
    let tally = group.end();
    tally.expect_each(READ, 0..=0, 35);
    tally.expect_each(READ, 8..=8, 1_000);
}
