//! Several faults at once: the refusal with the smallest number is the answer (rule 11.0).

use charts::{Chart, Record};
use reports::each::each;
use reports::hold::{accepts, says};
use second::limits::{BLOCKS, NODES};

/// Every fault from 2 to 10, each refusal's number being a bit.
const ALL: u32 = 0b111_1111_1100;

/// The nodes of a chart that has too many blocks, and the one of them that breaks a rule.
const MANY: usize = BLOCKS + 16;
const BROKEN: usize = MANY - 3;

/// A chart of many nodes with the faults of such a set.
fn faulty(faults: u32) -> Vec<u8> {
    let has = |number: u32| faults & 1 << number != 0;
    let mut chart = Chart::straight(&[0; MANY]);
    if has(2) {
        chart.header.edition = 2;
    }
    if has(3) {
        chart.header.ways = 9;
    }
    if has(4) {
        chart.header.start = 2;
    }
    if has(5) {
        chart.header.nodes = NODES as u64 + 1;
    }
    if has(6) {
        chart.header.entry = 4095;
    }
    if has(7) {
        chart.header.tail = 1;
    }
    if has(9) {
        chart.records[BROKEN].size = 3;
    }
    if has(10) {
        for node in 0..MANY {
            chart.records[node].address = 16 * node as u64;
        }
    }
    let mut bytes = chart.bytes();
    if has(8) {
        bytes.push(0);
    }
    bytes
}

/// Holds a set of faults to the answer of the first.
fn first_of(faults: u32) {
    let line = match faults.trailing_zeros() {
        9 => format!("refused 9 at {BROKEN}"),
        10 => format!("refused 10 at {BLOCKS}"),
        number => format!("refused {number} at 0"),
    };
    says(&faulty(faults), &line);
}

#[test]
fn the_chart_without_faults_passes() {
    accepts(&faulty(0), MANY, 1);
}

#[test]
fn of_any_one_or_two_faults_the_first_is_the_answer() {
    let pairs: Vec<u32> = (2..=10)
        .flat_map(|one| (one..=10).map(move |other| 1 << one | 1 << other))
        .collect();
    each(&pairs, |&faults| first_of(faults));
}

#[test]
fn of_all_faults_from_one_on_that_one_is_the_answer() {
    let ends: Vec<u32> = (2..=10).map(|one| ALL >> one << one).collect();
    each(&ends, |&faults| first_of(faults));
}

#[test]
fn fewer_than_8_bytes_give_1_before_any_other_fault() {
    let all = faulty(ALL);
    says(&all[..7], "refused 1 at 0");
    says(&all[..8], "refused 2 at 0");
}

#[test]
fn a_broken_record_goes_before_too_many_blocks_wherever_it_stands() {
    let kind = Record {
        kind: 3,
        ..Record::step()
    };
    let past_the_end = Record::read(0xFFFF_FFFF).sized(1);
    for node in [0, BLOCKS - 1, BLOCKS, BLOCKS + 1, MANY - 1] {
        let mut chart = Chart::straight(&(0..MANY as u64).map(|block| block * 16).collect::<Vec<u64>>());
        says(&chart.bytes(), &format!("refused 10 at {BLOCKS}"));
        for broken in [kind, past_the_end] {
            chart.records[node] = broken;
            says(&chart.bytes(), &format!("refused 9 at {node}"));
        }
    }
}

#[test]
fn a_count_of_0_gives_5_though_no_entry_is_below_it() {
    let mut chart = Chart::steps(1);
    chart.header.nodes = 0;
    says(&chart.bytes()[..8], "refused 5 at 0");
    says(&chart.bytes(), "refused 5 at 0");
}
