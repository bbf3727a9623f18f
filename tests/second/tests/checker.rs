//! The checker: refusals, and each way in which a table does not pass.

use charts::random::Random;
use charts::random_charts::whole;
use charts::{Chart, Record};
use second::analysis::Analysed;
use second::lending::Lending;
use second::limits::PASSES;
use second::refusal::Refusal;

/// The sample with one node more that no walk reaches: two blocks, 4 nodes.
fn chart() -> Vec<u8> {
    let mut chart = Chart::sample();
    chart.records.push(Record::read(0x10).to(0));
    chart.header.nodes = 4;
    chart.bytes()
}

/// The table of the analysis.
fn settled(chart: &[u8]) -> Lending {
    let mut lending = Lending::largest();
    assert!(matches!(lending.analyse(chart, PASSES), Analysed::Settled { .. }));
    lending
}

/// Whether the analysis's table still passes after a change.
fn passes(change: impl Fn(&mut Lending)) -> bool {
    let mut lending = settled(&chart());
    change(&mut lending);
    lending.check(&chart()).expect("the buffers are long enough")
}

#[test]
fn the_analysis_of_the_chart_passes() {
    assert!(passes(|_| ()));
}

#[test]
fn tails_are_not_looked_at() {
    assert!(passes(|lending| {
        lending.must[8..].fill(200);
        lending.may[8..].fill(200);
        lending.marks[4..].fill(200);
    }));
}

#[test]
fn marks_are_0_or_1() {
    assert!(!passes(|lending| lending.marks[1] = 2));
    assert!(!passes(|lending| lending.marks[3] = 255));
}

#[test]
fn ages_are_at_most_the_ways() {
    assert!(passes(|lending| lending.must[4] = 2));
    assert!(!passes(|lending| lending.must[4] = 3));
    assert!(!passes(|lending| lending.must[4] = 255));
    assert!(!passes(|lending| lending.may[0] = 3));
}

#[test]
fn rows_of_unmarked_nodes_are_zero() {
    assert!(!passes(|lending| lending.must[6] = 1));
    assert!(!passes(|lending| lending.may[7] = 1));
}

#[test]
fn a_node_that_no_walk_reaches_may_be_marked_if_its_arrows_hold() {
    // its read of block 1 leaves block 0 at (2, 2) and block 1 at (0, 0): the entry's may age of block 1 must then be 0
    let marked = |lending: &mut Lending| {
        lending.marks[3] = 1;
        lending.must[6..8].fill(2);
        lending.may[6..8].fill(2);
    };
    assert!(!passes(marked));
    assert!(passes(|lending| {
        marked(lending);
        for node in 0..3 {
            lending.may[2 * node + 1] = 0;
        }
    }));
}

#[test]
fn the_entry_is_marked_and_covers_the_start() {
    assert!(!passes(|lending| {
        lending.marks.fill(0);
        lending.must.fill(0);
        lending.may.fill(0);
    }));
    assert!(!passes(|lending| lending.must[0] = 1));
    assert!(passes(|lending| lending.may[..6].fill(0)));
}

#[test]
fn a_target_covers_its_sources() {
    assert!(!passes(|lending| lending.must[2] = 1));
    assert!(!passes(|lending| lending.may[4] = 1));
    assert!(!passes(|lending| {
        lending.marks[2] = 0;
        lending.must[4..6].fill(0);
        lending.may[4..6].fill(0);
    }));
}

#[test]
fn short_buffers_are_refusal_11_after_the_chart() {
    let mut lending = settled(&chart());
    lending.marks.truncate(3);
    assert_eq!(lending.check(&chart()), Err(Refusal::of(11)));
    assert_eq!(lending.check(&chart()[..7]), Err(Refusal::of(1)));
    let mut lending = settled(&chart());
    lending.must.truncate(7);
    assert_eq!(lending.check(&chart()), Err(Refusal::of(11)));
    let mut lending = settled(&chart());
    lending.may.truncate(7);
    assert_eq!(lending.check(&chart()), Err(Refusal::of(11)));
}

/// "Tightest": no table that is tighter anywhere passes.
#[test]
fn the_analysis_of_a_random_chart_passes_and_no_single_age_can_be_tighter() {
    let mut tried = 0;
    for seed in 0..400 {
        let mut random = Random::new(seed);
        let chart = whole(&mut random);
        let (bytes, ways) = (chart.bytes(), chart.header.ways as u8);
        let mut lending = Lending::largest();
        let Analysed::Settled { blocks, .. } = lending.analyse(&bytes, PASSES) else {
            continue;
        };
        assert_eq!(lending.check(&bytes), Ok(true), "seed {seed}");
        for _ in 0..20 {
            let node = random.below(chart.header.nodes) as usize;
            if lending.marks[node] == 0 || blocks == 0 {
                continue;
            }
            let cell = node * blocks + random.below(blocks as u64) as usize;
            let mut tighter = lending.clone();
            if random.once_in(2) && tighter.must[cell] > 0 {
                tighter.must[cell] -= 1;
            } else if tighter.may[cell] < ways {
                tighter.may[cell] += 1;
            } else {
                continue;
            }
            assert_eq!(tighter.check(&bytes), Ok(false), "seed {seed} cell {cell}");
            tried += 1;
        }
    }
    assert!(tried > 1_000, "only {tried} tighter tables were tried");
}
