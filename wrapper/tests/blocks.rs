//! `blocks`: the list is ascending and in its own places, the length of the buffer counts, and a refusal changes nothing.

use charts::{Chart, Record};
use veilbuzz::{blocks, Analysis, Refusal, BLOCKS};

/// Seven references, one of them over the end of a line and one that no walk reaches, to five blocks.
fn chart() -> Vec<u8> {
    let records = vec![
        Record::read(0x80),
        Record::write(0x3E).sized(2),
        Record::read(0x9F),
        Record::read(0xFFFF_FFFF),
        Record::step(),
        Record::write(0x30),
    ];
    let mut chart = Chart::of(records).in_a_row();
    chart.records.push(Record::read(0x45).sized(1));
    chart.header.nodes = 7;
    chart.bytes()
}

const LISTED: [u32; 5] = [3, 4, 8, 9, 0x0FFF_FFFF];

/// The blocks of a chart in a buffer of so many places, what is not written being 77, and the answer.
fn listed(chart: &[u8], length: usize) -> (Result<usize, Refusal>, Vec<u32>) {
    let mut list = vec![77; length];
    (blocks(chart, &mut list), list)
}

fn refused(number: usize, place: usize, length: usize) -> (Result<usize, Refusal>, Vec<u32>) {
    (Err(Refusal { number, place }), vec![77; length])
}

#[test]
fn buffers_of_every_length() {
    for length in 0..LISTED.len() {
        assert_eq!(listed(&chart(), length), refused(11, 0, length));
    }
    for length in LISTED.len()..BLOCKS + 9 {
        let mut list = vec![77; length];
        list[..LISTED.len()].copy_from_slice(&LISTED);
        assert_eq!(listed(&chart(), length), (Ok(LISTED.len()), list));
    }
}

#[test]
fn the_blocks_are_those_of_the_analysis() {
    let analysis = Analysis::of(&chart()).expect("the chart is accepted");
    assert_eq!(analysis.blocks, LISTED);
}

#[test]
fn a_chart_without_references_has_no_blocks() {
    let chart = Chart::steps(3).bytes();
    assert_eq!(listed(&chart, 0), (Ok(0), vec![]));
    assert_eq!(listed(&chart, 3), (Ok(0), vec![77; 3]));
}

#[test]
fn as_many_blocks_as_there_may_be_are_listed_in_order() {
    let down: Vec<u64> = (0..BLOCKS as u64).rev().map(|block| block * 16).collect();
    let chart = Chart::reads(&down).bytes();
    let all: Vec<u32> = (0..BLOCKS as u32).collect();
    assert_eq!(listed(&chart, BLOCKS), (Ok(BLOCKS), all));
    assert_eq!(listed(&chart, BLOCKS - 1), refused(11, 0, BLOCKS - 1));
}

#[test]
fn a_refused_chart_changes_nothing_whatever_is_lent() {
    let changed = |place: usize, byte: u8| {
        let mut bytes = chart();
        bytes[place] = byte;
        bytes
    };
    let many: Vec<u64> = (0..BLOCKS as u64 + 6).map(|block| block * 16).collect();
    let charts = [
        (chart()[..7].to_vec(), 1, 0),
        (changed(0, 2), 2, 0),
        (changed(1, 0x10), 3, 0),
        (changed(2, 0x28), 4, 0),
        (changed(5, 0), 5, 0),
        (changed(6, 7), 6, 0),
        (changed(7, 1), 7, 0),
        (chart()[..63].to_vec(), 8, 0),
        (changed(8 + 8 * 5 + 7, 3), 9, 5),
        (Chart::reads(&many).bytes(), 10, BLOCKS),
    ];
    for (chart, number, place) in charts {
        for length in [0, LISTED.len() - 1, LISTED.len(), BLOCKS + 1] {
            assert_eq!(listed(&chart, length), refused(number, place, length));
        }
    }
}
