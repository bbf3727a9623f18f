//! Each of the lent buffers with each length around the used one, and all of them with each other.

use charts::random_blocks::of_blocks;
use charts::random_charts::of_nodes;
use charts::{Chart, Record};
use compare::ask::{self, LentBounds, ANALYSE, CHECK, TOTAL};
use compare::group::Group;
use compare::guarded::{short, Guarded};
use compare::lent::{used, Lent};
use compare::raw;
use compare::table::{LentTable, Table};
use second::limits::{BLOCKS, PASSES};
use veilbuzz::{Analysis, Costs};

const MOST: u64 = BLOCKS as u64;

/// None, one too few, just enough, one more, many more.
fn around(used: usize) -> [usize; 5] {
    [0, used.saturating_sub(1), used, used + 1, used + 70]
}

/// Every choice of one length for each part.
pub fn choices<const PARTS: usize>(used: [usize; PARTS]) -> impl Iterator<Item = [usize; PARTS]> {
    (0..5_usize.pow(PARTS as u32)).map(move |code| {
        let mut lengths = used;
        for (part, length) in lengths.iter_mut().enumerate() {
            *length = around(used[part])[code / 5_usize.pow(part as u32) % 5];
        }
        lengths
    })
}

/// The sample, one without blocks, one node alone, one that touches two blocks, and some larger ones.
fn charts(group: &mut Group) -> Vec<Vec<u8>> {
    let random = &mut group.random;
    vec![
        Chart::sample().bytes(),
        Chart::steps(3).bytes(),
        Chart::reads(&[0]).bytes(),
        Chart::of(vec![Record::read(0x0E).sized(2)]).bytes(),
        of_blocks(random, 7, 3).bytes(),
        of_blocks(random, MOST + 6, MOST).bytes(),
    ]
}

#[test]
fn every_choice_of_lengths_for_the_analysis() {
    let mut group = Group::of("buffers of the analysis");
    for chart in charts(&mut group) {
        let header = veilbuzz::read(&chart).expect("the chart is accepted");
        group.hold(&chart, |random, tally, chart| {
            for lengths in choices(used(header.nodes, header.blocks)) {
                for allowance in [0, PASSES] {
                    let lent = Lent::of(random, lengths);
                    _ = ask::analyse(tally, chart, allowance, &lent)?;
                    raw::analyse(random, tally, chart, allowance, &lent)?;
                }
            }
            Ok(())
        });
    }
    let tally = group.end();
    for number in [0, 11, 12] {
        tally.expect_each(ANALYSE, number..=number, 1_000);
    }
}

/// The analysis's table with its parts cut or filled up.
fn of_lengths(analysis: &Analysis, [must, may, marks]: [usize; 3]) -> Table {
    let resized = |part: &[u8], length| {
        let mut part = part.to_vec();
        part.resize(length, 9);
        part
    };
    let table = analysis.table();
    Table {
        must: resized(table.must, must),
        may: resized(table.may, may),
        marks: resized(table.marks, marks),
    }
}

#[test]
fn every_choice_of_lengths_for_the_checker_and_the_totals() {
    let mut group = Group::of("buffers of the checker and the totals");
    for chart in charts(&mut group) {
        let analysis = Analysis::of(&chart).expect("the chart is accepted");
        let nodes = analysis.header.nodes;
        let [_, must, may, marks, _] = used(nodes, analysis.header.blocks);
        group.hold(&chart, |random, tally, chart| {
            for [must, may, marks, floors, ceilings] in choices([must, may, marks, nodes, nodes]) {
                let table = LentTable::exactly(random, &of_lengths(&analysis, [must, may, marks]));
                _ = ask::check(tally, chart, &table)?;
                raw::check(random, tally, chart, &table)?;
                let bounds = LentBounds {
                    floors: Guarded::holding(random, &vec![0; floors], 0, short),
                    ceilings: Guarded::holding(random, &vec![2; ceilings], 0, short),
                };
                let costs = Costs { hit: 1, miss: 9 };
                _ = ask::total(tally, chart, &table, costs, &bounds)?;
                raw::total(random, tally, chart, &table, costs, &bounds)?;
            }
            Ok(())
        });
    }
    let tally = group.end();
    for number in [0, 11] {
        tally.expect_each(CHECK, number..=number, 1_000);
        tally.expect_each(TOTAL, number..=number, 100);
    }
    tally.expect_each(TOTAL, 14..=14, 1_000);
}

#[test]
fn one_buffer_at_a_time_on_random_charts() {
    let mut group = Group::of("one buffer at a time");
    for _ in 0..2_000 {
        let nodes = group.random.within(1, 30);
        let chart = of_nodes(&mut group.random, nodes).bytes();
        let Ok(header) = veilbuzz::read(&chart) else { continue };
        group.hold(&chart, |random, tally, chart| {
            let used = used(header.nodes, header.blocks);
            for part in 0..used.len() {
                for length in around(used[part]) {
                    let mut lengths = used;
                    lengths[part] = length;
                    _ = ask::analyse(tally, chart, PASSES, &Lent::of(random, lengths))?;
                }
            }
            Ok(())
        });
    }
    let tally = group.end();
    for number in [0, 11] {
        tally.expect_each(ANALYSE, number..=number, 10_000);
    }
}
