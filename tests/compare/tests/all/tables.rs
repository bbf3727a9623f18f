//! Every table of very small charts: marks to one above the allowed, ages to one above the ways.

use charts::{Chart, Record};
use compare::ask::{self, CHECK};
use compare::group::Group;
use compare::same::holds;
use compare::table::{LentTable, Table};
use veilbuzz::Analysis;

/// How verdicts are counted.
const YES: &str = "the table passes";

/// Whether a table says no more than the tightest does (rule 7.8): it marks every node that that one marks, and there none of its must
/// ages is below that one's and none of its may ages above.
fn no_tighter(table: &Table, tightest: veilbuzz::Table, blocks: usize) -> bool {
    let mut marked = (0..tightest.marks.len()).filter(|&node| tightest.marks[node] == 1);
    marked.all(|node| {
        let mut row = node * blocks..(node + 1) * blocks;
        table.marks[node] == 1 && row.all(|k| table.must[k] >= tightest.must[k] && table.may[k] <= tightest.may[k])
    })
}

/// Checks every table of a chart; of all that pass, the analysis's is the tightest.
fn every_table(group: &mut Group, chart: &[u8]) {
    let analysis = Analysis::of(chart).expect("the chart is accepted");
    let header = analysis.header;
    let ages = header.nodes * header.blocks;
    group.hold(chart, |random, tally, chart| {
        let mut digits = vec![0; header.nodes + 2 * ages];
        loop {
            let (marks, rest) = digits.split_at(header.nodes);
            let (must, may) = rest.split_at(ages);
            let table = Table {
                must: must.to_vec(),
                may: may.to_vec(),
                marks: marks.to_vec(),
            };
            let answer = ask::check(tally, chart, &LentTable::exactly(random, &table))?;
            let passes = answer == Ok(true);
            holds(!passes || no_tighter(&table, analysis.table(), header.blocks), || {
                format!("{table:?} passes and is tighter")
            })?;
            tally.at(YES, passes.into());
            if !count_up(&mut digits, header.nodes, header.ways as u8 + 1) {
                return Ok(());
            }
        }
    });
}

/// The next table: marks count to 2, ages to the limit. Whether there is one.
fn count_up(digits: &mut [u8], marks: usize, limit: u8) -> bool {
    for (place, digit) in digits.iter_mut().enumerate() {
        if *digit < if place < marks { 2 } else { limit } {
            *digit += 1;
            return true;
        }
        *digit = 0;
    }
    false
}

/// The ways in which a node of two can lead on.
const ARROWS: [&[u64]; 5] = [&[], &[0], &[1], &[0, 1], &[1, 0]];

fn with_arrows(record: Record, arrows: &[u64]) -> Record {
    arrows.iter().fold(record, |record, &target| record.to(target))
}

/// Two nodes with all arrows, of which the last or both are a read of one block.
fn two_nodes(ways: u64, start: u64, entry: u64) -> Vec<Vec<u8>> {
    let mut charts = Vec::new();
    for first in [Record::step(), Record::read(0)] {
        for (one, two) in ARROWS.iter().flat_map(|one| ARROWS.map(|two| (*one, two))) {
            let records = vec![with_arrows(first, one), with_arrows(Record::read(0), two)];
            let mut chart = Chart::of(records).shaped(0, ways, start);
            chart.header.entry = entry;
            charts.push(chart.bytes());
        }
    }
    charts
}

fn sweep(name: &'static str, charts: Vec<Vec<u8>>) {
    let mut group = Group::of(name);
    for chart in charts {
        every_table(&mut group, &chart);
    }
    let tally = group.end();
    tally.expect_each(YES, 0..=1, 10);
    assert_eq!(
        tally.count(CHECK, 0),
        tally.count(YES, 0) + tally.count(YES, 1),
        "no table is refused"
    );
}

#[test]
fn every_table_of_two_nodes_and_one_way() {
    let shapes = [(0, 0), (0, 1), (1, 0), (1, 1)];
    let charts = shapes.into_iter().flat_map(|(start, entry)| two_nodes(1, start, entry));
    sweep("tables of two nodes and one way", charts.collect());
}

#[test]
fn every_table_of_two_nodes_and_two_ways() {
    let charts = [0, 1].into_iter().flat_map(|start| two_nodes(2, start, start));
    sweep("tables of two nodes and two ways", charts.collect());
}

#[test]
fn every_table_of_two_nodes_and_two_blocks() {
    let mut charts = Vec::new();
    for sets in 0..=1 {
        for start in 0..=1 {
            let records = vec![Record::read(0).to(1).to(0), Record::write(0x10).to(0)];
            charts.push(Chart::of(records).shaped(sets, 1, start).bytes());
        }
    }
    sweep("tables of two nodes and two blocks", charts);
}

#[test]
fn every_table_of_one_node_that_touches_two_blocks() {
    let mut charts = Vec::new();
    for (sets, ways) in [(0, 1), (0, 2), (1, 1), (1, 2)] {
        for (start, arrows) in [(0, &[][..]), (1, &[]), (0, &[0]), (1, &[0])] {
            let records = vec![with_arrows(Record::read(0x0E).sized(2), arrows)];
            charts.push(Chart::of(records).shaped(sets, ways, start).bytes());
        }
    }
    sweep("tables of one node that touches two blocks", charts);
}

#[test]
fn every_table_of_one_node_and_one_block() {
    let mut charts = Vec::new();
    for ways in 1..=8 {
        for (start, arrows) in [(0, &[][..]), (1, &[]), (0, &[0]), (1, &[0])] {
            let records = vec![with_arrows(Record::read(0), arrows)];
            charts.push(Chart::of(records).shaped(0, ways, start).bytes());
        }
    }
    sweep("tables of one node", charts);
}
