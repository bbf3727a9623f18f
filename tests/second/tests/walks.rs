//! The ages and the classes hold what walks do: along random walks on the plain cache each block's age lies between its may and its must age,
//! each touch that is called a hit hits, each that is called a miss misses, and of the touches of one block that are called kept one misses
//! at the most, under the analysis's own table and under looser ones that pass.

mod walking;

use charts::random::Random;
use second::chart::Chart;
use second::lending::Lending;
use second::limits::TOUCHES;
use walking::{found, looser, settled, walk};

/// How many first touches, and how many second ones, of each class were met, by its number; in the last place kept ones that missed.
type Met = [[usize; 7]; TOUCHES];
const MISSED: usize = 6;

/// Few charts have sure misses, and it takes many charts to meet some thousands.
fn assert_many(met: Met) {
    for ([_, hits, misses, unsure, _, kept, missed], least) in met.into_iter().zip([100_000, 10_000]) {
        assert!(
            hits > least && misses > least / 20 && unsure > least && kept > least && missed > least / 20,
            "only {met:?} were met"
        );
    }
}

/// Walks at random, and holds each node to the table.
fn hold(random: &mut Random, chart: &Chart, table: &Lending, met: &mut Met) {
    let mut cache = found(random, chart);
    let mut missed = vec![false; chart.blocks.len()];
    for node in walk(random, chart) {
        assert_eq!(table.marks[node], 1);
        for (column, &block) in chart.blocks.iter().enumerate() {
            let cell = node * chart.blocks.len() + column;
            let age = cache.age(block);
            assert!(table.may[cell] <= age && age <= table.must[cell]);
        }
        for (touch, hit) in cache.visit(chart, node).into_iter().enumerate() {
            let class = table.classes[TOUCHES * node + touch];
            match (hit, class) {
                (None, 4) | (Some(true), 1 | 5) | (Some(false), 2) | (Some(_), 3) => {}
                (Some(false), 5) => {
                    let block = chart.nodes[node].touches[touch].expect("a touch has a block");
                    assert!(!missed[block], "block {block} is kept and misses twice");
                    missed[block] = true;
                    met[touch][MISSED] += 1;
                }
                (hit, class) => panic!("touch {touch}, class {class}, hit {hit:?}"),
            }
            met[touch][usize::from(class)] += 1;
        }
    }
}

/// Holds walks of many charts to a table that is drawn for each. How many touches of each class were met.
fn hold_all(draw: impl Fn(&mut Random, &[u8], &Chart, &Lending) -> Lending) -> Met {
    let mut met = [[0; 7]; TOUCHES];
    for seed in 0..3_000 {
        let mut random = Random::new(seed);
        let Some((bytes, chart, table)) = settled(&mut random) else {
            continue;
        };
        for _ in 0..5 {
            let table = draw(&mut random, &bytes, &chart, &table);
            hold(&mut random, &chart, &table, &mut met);
        }
    }
    met
}

#[test]
fn every_walk_stays_within_the_ages() {
    assert_many(hold_all(|_, _, _, table| table.clone()));
}

#[test]
fn every_walk_stays_within_looser_ages_that_pass() {
    assert_many(hold_all(looser));
}
