//! The totals with every choice of faults, and costs and bounds at their ends; and deadlines with each.

use charts::{Chart, Record};
use compare::ask::{self, TOTAL};
use compare::bounds::Question;
use compare::deadlines;
use compare::group::Group;
use compare::impossible::BEHIND;
use compare::raw;
use compare::raw_deadline;
use compare::table::{LentTable, Table};
use compare::times::DEADLINE;
use second::limits::{BLOCKS, NODES};
use veilbuzz::{Analysis, Costs};

/// The sample with a read before its end that no walk reaches, and two more nodes of that kind behind it.
fn chart() -> Vec<u8> {
    let records = vec![
        Record::step().to(1),
        Record::read(0).to(1).to(3),
        Record::read(0x10).to(0),
        Record::read(0),
        Record::step(),
        Record::read(0x20),
    ];
    Chart::of(records).bytes()
}

/// What the totals are asked with.
#[derive(Clone)]
struct Asked {
    table: Table,
    question: Question,
}

fn sound(chart: &[u8]) -> Asked {
    let analysis = Analysis::of(chart).expect("the chart is accepted");
    Asked {
        table: Table::copied(analysis.table()),
        question: Question {
            costs: Costs { hit: 1, miss: 10 },
            floors: vec![1, 1, 0, 1, 0, 0],
            ceilings: vec![1, 10, 5, 1, 5, 5],
        },
    }
}

/// Puts a fault into what is asked with.
type Fault = fn(&mut Asked);

const FAULTS: [Fault; 12] = [
    |asked| asked.table.must.truncate(17),
    |asked| asked.table.marks.truncate(5),
    |asked| asked.table.must[0] = 0,
    |asked| asked.table.may[4] = 1,
    |asked| asked.question.floors.truncate(5),
    |asked| asked.question.ceilings.push(1),
    |asked| asked.question.costs = Costs { hit: 10, miss: 9 },
    |asked| asked.question.floors[1] = 11,
    |asked| asked.question.ceilings[3] = 0,
    |asked| asked.question.floors[2] = 1,
    |asked| asked.question.floors[4] = 5,
    |asked| asked.question.ceilings[0] = 0,
];

/// Asks about one chart with all of these, and for so many deadlines with each.
fn ask_all(group: &mut Group, chart: &[u8], all: impl Iterator<Item = Asked>, sheets: usize) {
    group.hold(chart, |random, tally, chart| {
        for Asked { table, question } in all {
            let table = LentTable::exactly(random, &table);
            let bounds = question.lent(random);
            let asked = raw_deadline::Asked {
                chart,
                table: &table,
                costs: question.costs,
                bounds: &bounds,
                totals: ask::total(tally, chart, &table, question.costs, &bounds)?,
            };
            raw::total(random, tally, chart, &table, question.costs, &bounds)?;
            deadlines::draw(random, tally, &asked, sheets)?;
        }
        Ok(())
    });
}

#[test]
fn every_choice_of_faults() {
    let mut group = Group::of("faults of the totals");
    let chart = chart();
    let choices = (0..1 << FAULTS.len()).map(|choice| {
        let mut asked = sound(&chart);
        for (number, fault) in FAULTS.iter().enumerate() {
            if choice >> number & 1 == 1 {
                fault(&mut asked);
            }
        }
        asked
    });
    ask_all(&mut group, &chart, choices, 4);
    let tally = group.end();
    for number in [0, 11, 13, 14, 15, 16, 17] {
        tally.expect_each(TOTAL, number..=number, 1);
        tally.expect_each(DEADLINE, number..=number, 1);
        if number > 0 {
            tally.expect_each(BEHIND, number..=number, 1);
        }
    }
}

const ENDS: [u16; 8] = [0, 1, 255, 256, 32_767, 32_768, 65_534, 65_535];

/// Every two of the ends.
fn pairs() -> impl Iterator<Item = (u16, u16)> {
    ENDS.into_iter().flat_map(|one| ENDS.map(|two| (one, two)))
}

#[test]
fn costs_and_bounds_at_their_ends() {
    let mut group = Group::of("costs and bounds at their ends");
    let chart = chart();
    let all = pairs().flat_map(|costs| pairs().map(move |bounds| (costs, bounds)));
    let all = all.map(|((hit, miss), (floor, ceiling))| {
        let question = Question {
            costs: Costs { hit, miss },
            floors: [1, 1, 0, 1, 0, 0].map(|times| times * floor).to_vec(),
            ceilings: vec![ceiling; 6],
        };
        Asked {
            question,
            ..sound(&chart)
        }
    });
    ask_all(&mut group, &chart, all, 4);
    let tally = group.end();
    for number in [0, 15, 16] {
        tally.expect_each(TOTAL, number..=number, 500);
    }
}

/// The most reads, each of two blocks, all but some of them hits or all of them misses, at the highest costs and bounds.
#[test]
fn the_largest_totals() {
    let mut group = Group::of("the largest totals");
    for blocks in [2, BLOCKS as u64] {
        let read = |node| Record::read(node % (blocks - 1) * 16 + 15).sized(1);
        let chart = Chart::of((0..NODES as u64).map(read).collect()).in_a_row().bytes();
        let highest = Question {
            costs: Costs {
                hit: 65_535,
                miss: 65_535,
            },
            floors: vec![65_535; NODES],
            ceilings: vec![65_535; NODES],
        };
        let asked = Asked {
            question: highest,
            ..sound(&chart)
        };
        ask_all(&mut group, &chart, [asked].into_iter(), 400);
    }
    let tally = group.end();
    tally.expect(TOTAL, 2);
    tally.expect(DEADLINE, 300);
}
