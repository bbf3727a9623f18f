//! Which sizes and addresses are refused (rules 2.10 to 2.12), and the blocks that one node brings (rule 3.4).

use charts::{Chart, Record};
use second::chart;
use second::limits::BLOCKS;
use second::refusal::Refusal;

/// The blocks of records without arrows.
fn blocks(records: Vec<Record>) -> Result<Vec<u32>, Refusal> {
    chart::Chart::read(&Chart::of(records).bytes()).map(|chart| chart.blocks)
}

/// Whether a record keeps its rules.
fn keeps(record: Record) -> bool {
    let answer = blocks(vec![Record::step(), record]);
    assert!(answer.is_ok() || answer == Err(Refusal::at(9, 1)), "{answer:?}");
    answer.is_ok()
}

#[test]
fn size_codes_0_to_2_are_allowed_and_others_are_not() {
    for size in 0..16 {
        assert_eq!(
            keeps(Record::read(0x40).sized(size)),
            size <= 2,
            "a read of size {size}"
        );
        assert_eq!(
            keeps(Record::write(0x40).sized(size)),
            size <= 2,
            "a write of size {size}"
        );
        assert_eq!(keeps(Record::step().sized(size)), size == 0, "a step of size {size}");
    }
}

#[test]
fn the_last_byte_has_an_address() {
    for (size, last) in [(0, 0xFFFF_FFFF), (1, 0xFFFF_FFFE), (2, 0xFFFF_FFFC)] {
        for address in 0xFFFF_FFF0..=0xFFFF_FFFF {
            assert_eq!(
                keeps(Record::read(address).sized(size)),
                address <= last,
                "{address:X} of size {size}"
            );
        }
        for address in 0..16 {
            assert!(keeps(Record::write(address).sized(size)));
        }
    }
}

#[test]
fn the_first_and_the_last_bytes_lie_in_the_first_and_the_last_block() {
    let ends = |size| blocks(vec![Record::read(0).sized(size), Record::read(0xFFFF_FFFC).sized(size)]);
    for size in 0..=2 {
        assert_eq!(ends(size), Ok(vec![0, 0x0FFF_FFFF]));
    }
    let before_the_last = Record::read(0xFFFF_FFEF).sized(1);
    assert_eq!(blocks(vec![before_the_last]), Ok(vec![0x0FFF_FFFE, 0x0FFF_FFFF]));
}

/// Reads of so many blocks from block 100 on, and then a read that begins in such a block and goes into the next.
fn then_both(reads: usize, lower: u64) -> Result<usize, Refusal> {
    let mut records: Vec<Record> = (0..reads as u64)
        .map(|block| Record::read((100 + block) * 16))
        .collect();
    records.push(Record::read(lower * 16 + 15).sized(1));
    records.extend([Record::step(), Record::read(0xFFFF_FFF0)]);
    records.truncate(reads + 2);
    blocks(records).map(|blocks| blocks.len())
}

#[test]
fn one_node_may_bring_two_blocks_and_is_told_where_they_are_too_many() {
    let refused = |node| Err(Refusal::at(10, node));
    assert_eq!(then_both(BLOCKS - 2, 0), Ok(BLOCKS));
    // the first that does not fit is the upper, and then the lower
    assert_eq!(then_both(BLOCKS - 1, 0), refused(BLOCKS - 1));
    assert_eq!(then_both(BLOCKS, 0), refused(BLOCKS));
}

#[test]
fn of_two_blocks_only_the_one_that_is_new_counts() {
    let last = 99 + BLOCKS as u64;
    assert_eq!(then_both(BLOCKS, 100), Ok(BLOCKS));
    assert_eq!(then_both(BLOCKS, last), Err(Refusal::at(10, BLOCKS)));
    assert_eq!(then_both(BLOCKS, 99), Err(Refusal::at(10, BLOCKS)));
    assert_eq!(then_both(BLOCKS - 1, last - 1), Ok(BLOCKS));
    assert_eq!(then_both(BLOCKS - 1, 99), Ok(BLOCKS));
}
