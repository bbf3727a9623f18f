//! It answers and leaves what the second program does: the same number of passes, and the same in all five buffers.

use charts::random::Random;
use charts::random_charts::{damaged, of_nodes, whole};
use charts::slowest::slowest;
use charts::{Chart, Record};
use second::analysis::Analysed;
use second::lending::Lending;
use second::limits::{BLOCKS, NODES, PASSES};
use unchanged::analysis::analyse_lending;

/// What stands in each buffer before the analysis.
const BEFORE: u8 = 77;

/// Has a chart analysed by both, in buffers as they are given, and sees that they agree. What both answer.
fn agreed(chart: &[u8], allowance: usize, lent: &Lending) -> Analysed {
    let (mut one, mut other) = (lent.clone(), lent.clone());
    let answer = other.analyse(chart, allowance);
    assert_eq!(analyse_lending(&mut one, chart, allowance), answer, "of {chart:x?}");
    assert_eq!(one, other, "of {chart:x?}");
    answer
}

/// The same with room to spare, and where it settles with no more passes allowed than it takes, with one fewer, and with none.
fn agreed_under_allowances(chart: &[u8]) -> Analysed {
    let lent = Lending::of(BLOCKS + 1, chart.len() / 8 + 1, BEFORE);
    let answer = agreed(chart, PASSES, &lent);
    if let Analysed::Settled { passes, .. } = answer {
        assert_eq!(agreed(chart, passes, &lent), answer);
        for allowance in [0, passes / 2, passes - 1] {
            let fewer = agreed(chart, allowance, &lent);
            assert!(matches!(fewer, Analysed::Unsettled { .. }), "{fewer:?}");
        }
    }
    answer
}

/// A chart from an unknown start and from an empty one.
fn starts(chart: Chart) -> [Vec<u8>; 2] {
    [0, 1].map(|start| {
        let mut chart = chart.clone();
        chart.header.start = start;
        chart.bytes()
    })
}

#[test]
fn on_the_sample_and_the_smallest_charts() {
    for chart in [
        Chart::sample(),
        Chart::steps(1),
        Chart::steps(3),
        Chart::reads(&[0, 16]),
    ] {
        starts(chart).iter().for_each(|chart| {
            agreed_under_allowances(chart);
        });
    }
}

/// A node that leads to itself is due again just after it was visited.
#[test]
fn on_loops_of_one_node() {
    for read in [Record::step(), Record::read(0), Record::read(0x0f).sized(2)] {
        let ring = Chart::of(vec![read.to(0).to(1), Record::read(0x20).to(1).to(0)]);
        for sets in 0..2 {
            for ways in 1..=8 {
                starts(ring.clone().shaped(sets, ways, 0)).iter().for_each(|chart| {
                    agreed_under_allowances(chart);
                });
            }
        }
    }
}

#[test]
fn on_random_charts_of_all_sizes() {
    let mut random = Random::new(141);
    let (mut settled, mut most) = (0, 0);
    for _ in 0..1_000 {
        for chart in starts(whole(&mut random)) {
            if let Analysed::Settled { passes, .. } = agreed_under_allowances(&chart) {
                settled += 1;
                most = passes.max(most);
            }
        }
    }
    assert!(
        settled > 1_000 && most > 20,
        "{settled} were settled, in at most {most} passes"
    );
}

#[test]
fn on_thousands_of_small_ones() {
    let mut random = Random::new(142);
    for _ in 0..10_000 {
        let nodes = random.within(1, 12);
        for chart in starts(of_nodes(&mut random, nodes)) {
            agreed_under_allowances(&chart);
        }
    }
}

#[test]
fn on_damaged_ones() {
    let mut random = Random::new(143);
    let mut refused = 0;
    for _ in 0..3_000 {
        let nodes = random.within(1, 60);
        let chart = of_nodes(&mut random, nodes);
        let chart = damaged(&mut random, chart);
        refused += usize::from(matches!(agreed_under_allowances(&chart), Analysed::Refused(_)));
    }
    assert!(refused > 500, "only {refused} were refused");
}

#[test]
fn on_the_slowest_ones() {
    for nodes in [6, 7, 16, 66, NODES / 4] {
        for chart in starts(slowest(nodes)) {
            let answer = agreed(&chart, PASSES, &Lending::of(BLOCKS, nodes, BEFORE));
            assert!(
                matches!(answer, Analysed::Settled { passes, .. } if passes > 6 * nodes),
                "{answer:?}"
            );
        }
    }
}

#[test]
fn where_a_buffer_is_one_too_short() {
    let mut random = Random::new(144);
    let shortened: [fn(&mut Lending) -> bool; 5] = [
        |lent| lent.blocks.pop().is_some(),
        |lent| lent.must.pop().is_some(),
        |lent| lent.may.pop().is_some(),
        |lent| lent.marks.pop().is_some(),
        |lent| lent.classes.pop().is_some(),
    ];
    for _ in 0..300 {
        let nodes = random.within(1, 40);
        let chart = of_nodes(&mut random, nodes).bytes();
        let room = Lending::of(BLOCKS, nodes as usize, BEFORE);
        let Analysed::Settled { blocks, .. } = agreed(&chart, PASSES, &room) else {
            continue;
        };
        let exact = Lending::of(blocks, nodes as usize, BEFORE);
        agreed(&chart, PASSES, &exact);
        for shorten in shortened {
            let mut lent = exact.clone();
            if shorten(&mut lent) {
                let answer = agreed(&chart, PASSES, &lent);
                assert!(
                    matches!(answer, Analysed::Refused(refusal) if refusal.number == 11),
                    "{answer:?}"
                );
            }
        }
    }
}
