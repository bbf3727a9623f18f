//! Lengths that 32 bits are not enough for. Zeros that nobody touches take no memory.

use charts::random::Random;
use charts::Chart;
use compare::given::Given;
use compare::given_lent::LentGiven;
use veilbuzz::{analyse, check, read, write, Buffers, Settled, Table, PASSES};

const WIDE: usize = 1 << 32;

/// The sample's used parts, with so much behind them.
fn longer(used: &[u8], more: usize) -> Vec<u8> {
    let mut bytes = vec![0; used.len() + more];
    bytes[..used.len()].copy_from_slice(used);
    bytes
}

#[test]
fn a_chart_with_2_to_the_32_bytes_behind_it_is_refused() {
    let chart = longer(&Chart::sample().bytes(), WIDE);
    assert_eq!(
        read(&chart).map_err(|refusal| (refusal.number, refusal.place)),
        Err((8, 0))
    );
}

#[test]
fn buffers_of_2_to_the_32_are_long_enough() {
    let chart = Chart::sample().bytes();
    let mut must = vec![0; WIDE];
    let (mut blocks, mut may, mut marks, mut classes) = ([9; 1], [9; 3], [9; 3], [9; 6]);
    let lent = Buffers {
        blocks: &mut blocks,
        must: &mut must,
        may: &mut may,
        marks: &mut marks,
        classes: &mut classes,
    };
    assert_eq!(analyse(&chart, PASSES, lent), Ok(Settled { passes: 2, blocks: 1 }));
    assert_eq!(
        (&must[..4], may, marks, classes),
        (&[2, 2, 0, 0][..], [2, 0, 0], [1; 3], [4, 4, 5, 4, 1, 4])
    );
    let table = Table {
        must: &must,
        may: &may,
        marks: &marks,
    };
    assert_eq!(check(&chart, table), Ok(true));
}

#[test]
fn a_chart_is_written_over_the_start_of_2_to_the_32_bytes() {
    let sample = Chart::sample();
    let given = LentGiven::of(&mut Random::new(1), &Given::of_chart(&sample));
    let mut chart = vec![0; WIDE];
    assert_eq!(write(given.heading(), &given.node_lists(), &mut chart), Ok(32));
    assert_eq!(chart[..32], sample.bytes());
}
