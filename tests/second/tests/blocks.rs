//! The list of blocks, in buffers that are short, just long enough and longer.

use charts::{Chart, Record};
use second::blocks::blocks;
use second::limits::BLOCKS;
use second::refusal::Refusal;

const BEFORE: u32 = 0xDEAD_BEEF;

/// The answer with so many places lent, and what they hold then.
fn lent(chart: &Chart, places: usize) -> (Result<usize, Refusal>, Vec<u32>) {
    let mut lent = vec![BEFORE; places];
    let answer = blocks(&chart.bytes(), &mut lent);
    (answer, lent)
}

/// Reads of blocks 7, 2 and 0 and, of two bytes, of 2 and 3.
fn four() -> Chart {
    let mut chart = Chart::reads(&[0x70, 0x20, 0x00, 0x2F]);
    chart.records[3].size = 1;
    chart
}

#[test]
fn the_blocks_ascend_in_the_first_places_and_the_rest_stays() {
    assert_eq!(lent(&four(), 4), (Ok(4), vec![0, 2, 3, 7]));
    assert_eq!(lent(&four(), 6), (Ok(4), vec![0, 2, 3, 7, BEFORE, BEFORE]));
}

#[test]
fn a_short_buffer_is_refused_and_left_as_it_was() {
    for places in 0..4 {
        let refused = (Err(Refusal::of(11)), vec![BEFORE; places]);
        assert_eq!(lent(&four(), places), refused);
    }
}

#[test]
fn no_block_needs_no_place() {
    let steps = Chart::steps(3);
    assert_eq!(lent(&steps, 0), (Ok(0), vec![]));
    assert_eq!(lent(&steps, 2), (Ok(0), vec![BEFORE; 2]));
}

#[test]
fn the_most_blocks_need_as_many_places() {
    let reads = |blocks: u64| Chart::reads(&(0..blocks).rev().map(|block| block << 26).collect::<Vec<u64>>());
    let most = reads(BLOCKS as u64);
    let list: Vec<u32> = (0..BLOCKS as u32).map(|block| block << 22).collect();
    assert_eq!(lent(&most, BLOCKS), (Ok(BLOCKS), list));
    assert_eq!(lent(&most, BLOCKS - 1).0, Err(Refusal::of(11)));
}

#[test]
fn refusals_of_the_chart_go_before_a_short_buffer_and_change_nothing() {
    let mut broken = Chart::steps(2);
    broken.records[1] = Record::step().sized(1);
    let addresses: Vec<u64> = (0..=BLOCKS as u64).map(|block| block * 16).collect();
    for (chart, refusal) in [
        (broken, Refusal::at(9, 1)),
        (Chart::reads(&addresses), Refusal::at(10, BLOCKS)),
    ] {
        for places in [0, 1, BLOCKS + 2] {
            assert_eq!(lent(&chart, places), (Err(refusal), vec![BEFORE; places]));
        }
    }
}
