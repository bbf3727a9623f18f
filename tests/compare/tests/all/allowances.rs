//! Every allowance, from none to more than enough.

use charts::random_charts::of_nodes;
use charts::{Chart, Record};
use compare::ask::{self, ANALYSE};
use compare::features::PASSES;
use compare::group::Group;
use compare::lent::{used, Lent};
use compare::raw;
use second::limits::{self, BLOCKS, NODES};
use veilbuzz::Analysis;

/// A line that runs against the numbers, with a way back: a pass carries a change one node far.
fn backward(nodes: u64, blocks: u64, sets: u64, start: u64) -> Chart {
    let records = (0..nodes).map(|node| {
        let read = Record::read(node % blocks * 16);
        read.to(node.checked_sub(1).unwrap_or(nodes - 1))
    });
    let mut chart = Chart::of(records.collect()).shaped(sets, 8, start);
    chart.header.entry = nodes - 1;
    chart
}

/// One chart with every allowance.
fn sweep(group: &mut Group, chart: &[u8]) {
    let Ok(Analysis { header, passes, .. }) = Analysis::of(chart) else {
        return;
    };
    group.hold(chart, |random, tally, chart| {
        tally.at(PASSES, passes);
        let above = [limits::PASSES, 1 << 32, usize::MAX / 2, usize::MAX - 1, usize::MAX];
        for allowance in (0..=passes + 2).chain(above) {
            let lent = Lent::of(random, used(header.nodes, header.blocks));
            _ = ask::analyse(tally, chart, allowance, &lent)?;
            raw::analyse(random, tally, chart, allowance, &lent)?;
        }
        Ok(())
    });
}

#[test]
fn every_allowance_of_charts_that_take_many_passes() {
    let mut group = Group::of("allowances");
    for nodes in 1..=40 {
        for blocks in 1..=3 {
            sweep(&mut group, &backward(nodes, blocks, 0, nodes % 2).bytes());
        }
    }
    for _ in 0..500 {
        let nodes = group.random.within(1, 30);
        let chart = of_nodes(&mut group.random, nodes).bytes();
        sweep(&mut group, &chart);
    }
    let tally = group.end();
    tally.expect_each(PASSES, 1..=20, 1);
    for number in [0, 12] {
        tally.expect_each(ANALYSE, number..=number, 1_000);
    }
}

#[test]
fn large_charts_that_take_many_passes() {
    let mut group = Group::of("many passes");
    for nodes in [100, NODES - 1, NODES] {
        for blocks in [1, 9, BLOCKS - 1, BLOCKS] {
            for (sets, start) in [(0, 0), (0, 1), (2, 0), (2, 1)] {
                group.trial(&backward(nodes as u64, blocks as u64, sets, start).bytes());
            }
        }
    }
    let most = (0..=limits::PASSES)
        .rev()
        .find(|&passes| group.tally.count(PASSES, passes) > 0);
    assert!(most > Some(NODES), "the most passes were {most:?}");
    group.end();
}
