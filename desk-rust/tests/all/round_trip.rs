//! There and back on very many charts: from bytes to words to bytes, and from a text of every style to a chart, to words and to the chart again.

use crate::charts_drawn::{of_any_size, of_at_most};
use crate::texts_drawn::drawn;
use crate::trying::made;
use charts::random::Random;
use charts::Chart;
use desk::known::Known;
use desk::texted::texted;
use reports::each::each;
use std::collections::BTreeMap;
use std::sync::Mutex;
use veilbuzz::NODES;

/// So many charts each way, of which every tenth has any size and the others are small. They are drawn in turns of so many from a seed.
const CHARTS: usize = 20_000;
const TURN: usize = 100;

/// How many charts there were of each size, by powers of two.
type Sizes = Mutex<BTreeMap<u32, usize>>;

/// Does the work for each of the charts, as many at once as the machine has processors.
fn each_chart(seed: u64, work: impl Fn(&mut Random, &Chart) + Sync) -> BTreeMap<u32, usize> {
    let seeds: Vec<u64> = (0..(CHARTS / TURN) as u64).map(|turn| seed + turn).collect();
    let sizes = Sizes::default();
    each(&seeds, |seed| {
        let mut random = Random::new(*seed);
        for place in 0..TURN {
            let chart = match place % 10 {
                0 => of_any_size(&mut random),
                _ => of_at_most(&mut random, 40),
            };
            work(&mut random, &chart);
            let mut sizes = sizes.lock().expect("no other thread failed");
            *sizes.entry(chart.records.len().ilog2()).or_default() += 1;
        }
    });
    sizes.into_inner().expect("no thread failed")
}

/// So that no size is left out: one node, two to three, and so on up to the most.
fn expect(sizes: BTreeMap<u32, usize>) {
    assert_eq!(sizes.values().sum::<usize>(), CHARTS);
    assert_eq!(sizes.len() as u32, NODES.ilog2() + 1, "{sizes:?}");
    assert!(sizes.values().all(|charts| *charts >= 10), "{sizes:?}");
}

#[test]
fn a_chart_in_words_is_the_same_chart_again() {
    expect(each_chart(1_000, |_, chart| {
        let bytes = chart.bytes();
        let known = Known::of_chart("drawn", bytes.clone()).expect("the reader accepts it");
        let text = texted(&known);
        let again = made(&text);
        assert_eq!(again.chart, bytes, "{text}");
        assert_eq!(texted(&again), text, "its words stay as they are");
    }));
}

#[test]
fn a_text_of_any_style_is_the_chart_that_it_says_and_stays_it() {
    expect(each_chart(2_000, |random, chart| {
        let drawn = drawn(random, chart);
        let known = made(&drawn.text);
        assert_eq!(known.chart, chart.bytes(), "{}", drawn.text);
        drawn.expect(&known);
        let text = texted(&known);
        let again = made(&text);
        assert_eq!(again.chart, known.chart, "{text}");
        let names = |known: &Known| -> Vec<String> { known.nodes.iter().map(|node| node.name.clone()).collect() };
        assert_eq!(names(&again), names(&known));
    }));
}
