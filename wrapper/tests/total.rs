//! `total`: each cost and each bound counts where its name says, each length counts, and nothing is written.

mod lent;
mod question;

use charts::{Chart, Record};
use lent::{AGES, NODES};
use question::{Question, HIGH, LOW};
use veilbuzz::{total, Analysis, Bounds, Costs, Refusal, Totals};

/// The answer after a change, and that all is left as it was lent.
fn after(change: impl Fn(&mut Question)) -> Result<Totals, Refusal> {
    let mut question = Question::fresh();
    change(&mut question);
    let before = question.clone();
    let answer = total(
        &question.chart,
        question.lent.table(),
        question.costs,
        question.bounds(),
    );
    assert_eq!(question, before);
    answer
}

fn refusal(number: usize, place: usize) -> Result<Totals, Refusal> {
    Err(Refusal { number, place })
}

#[test]
fn the_totals_are_the_sums() {
    assert_eq!(after(|_| ()), Ok(Totals { low: LOW, high: HIGH }));
}

#[test]
fn each_touch_is_paid() {
    // four bytes over the end of a line, in one set of one way, unknown: the first touch is kept, the second misses
    let chart = Chart::of(vec![Record::read(0x0E).sized(2)]).shaped(0, 1, 0).bytes();
    let analysis = Analysis::of(&chart).expect("the chart is accepted");
    let bounds = Bounds {
        floors: &[3],
        ceilings: &[5],
    };
    let totals = total(&chart, analysis.table(), Costs { hit: 1, miss: 10 }, bounds);
    assert_eq!(totals, Ok(Totals { low: 33, high: 64 }));
}

/// The high total of a chart by its tightest table, at 1 for a hit and 10 for a miss, where each node is visited up to so many times.
fn high(chart: &Chart, ceilings: &[u16]) -> u64 {
    let chart = chart.bytes();
    let analysis = Analysis::of(&chart).expect("the chart is accepted");
    let bounds = Bounds {
        floors: &vec![0; ceilings.len()],
        ceilings,
    };
    let totals = total(&chart, analysis.table(), Costs { hit: 1, miss: 10 }, bounds);
    totals.expect("the totals are accepted").high
}

#[test]
fn a_kept_block_is_loaded_once_wherever_it_is_touched() {
    // a step to two reads of one block, of which a walk makes one, from an unknown start: both are kept
    let records = vec![Record::step().to(1).to(2), Record::read(0x00), Record::read(0x08)];
    let chart = Chart::of(records).shaped(0, 2, 0);
    for (ceilings, paid) in [
        ([1, 4, 5], 4 + 5 + 9),
        ([1, 0, 5], 5 + 9),
        ([1, 4, 0], 4 + 9),
        ([1, 0, 0], 0),
    ] {
        assert_eq!(high(&chart, &ceilings), paid, "{ceilings:?}");
    }
}

#[test]
fn an_unsure_touch_pays_a_miss_each_time() {
    // a ring of two reads in a set of one way, and a way past the second: the first is unsure, the second misses
    let records = vec![
        Record::read(0x00).to(1).to(2),
        Record::read(0x10).to(0),
        Record::step().to(0),
    ];
    assert_eq!(high(&Chart::of(records).shaped(0, 1, 1), &[7, 3, 4]), 70 + 30);
}

#[test]
fn costs_of_16_bits_count_whole() {
    let dear = Costs {
        hit: 0xFF01,
        miss: 0xFFFF,
    };
    let (low, high) = (0xFF01 * 6, 0xFF01 * 60_030 + 2 * (0xFFFF - 0xFF01));
    assert_eq!(after(|question| question.costs = dear), Ok(Totals { low, high }));
}

#[test]
fn hit_and_miss_swapped_are_refusal_15() {
    assert_eq!(
        after(|question| question.costs = Costs { hit: 1000, miss: 3 }),
        refusal(15, 0)
    );
}

#[test]
fn floors_and_ceilings_swapped_are_refusal_16() {
    assert_eq!(
        after(|question| std::mem::swap(&mut question.floors, &mut question.ceilings)),
        refusal(16, 0)
    );
    assert_eq!(after(|question| question.floors[1] = 21), refusal(16, 1));
    assert_eq!(after(|question| question.ceilings[2] = 2), refusal(16, 2));
}

#[test]
fn a_floor_at_the_unmarked_node_is_refusal_17() {
    assert_eq!(after(|question| question.floors[3] = 1), refusal(17, 3));
}

#[test]
fn floors_and_ceilings_each_have_their_length() {
    for length in [0, 3, 5] {
        assert_eq!(after(|question| question.floors.resize(length, 0)), refusal(14, 0));
        assert_eq!(after(|question| question.ceilings.resize(length, 9)), refusal(14, 0));
    }
}

#[test]
fn each_part_of_the_table_counts() {
    assert_eq!(after(|question| question.lent.must[4] = 1), refusal(13, 0));
    assert_eq!(after(|question| question.lent.may[3] = 1), refusal(13, 0));
    assert_eq!(after(|question| question.lent.marks[1] = 0), refusal(13, 0));
    assert_eq!(after(|question| question.lent.must.truncate(AGES - 1)), refusal(11, 0));
    assert_eq!(after(|question| question.lent.may.truncate(AGES - 1)), refusal(11, 0));
    assert_eq!(
        after(|question| question.lent.marks.truncate(NODES - 1)),
        refusal(11, 0)
    );
}

#[test]
fn the_chart_counts() {
    assert_eq!(after(|question| question.chart.truncate(7)), refusal(1, 0));
    // size code 3
    assert_eq!(after(|question| question.chart[8 + 8 + 7] |= 3), refusal(9, 1));
}
