//! Rule 8.1 on the examples of section 8: three reads in a row, with 16-byte lines.

use charts::Chart;
use second::lending::Lending;
use second::limits::PASSES;

const UNKNOWN: u64 = 0;
const EMPTY: u64 = 1;

/// The classes of three reads of a byte in a row. None of them makes a second touch.
fn classes(addresses: [u64; 3], sets: u64, ways: u64, start: u64) -> Vec<u8> {
    let mut lending = Lending::largest();
    let chart = Chart::straight(&addresses).shaped(sets, ways, start);
    lending.analyse(&chart.bytes(), PASSES);
    let both = lending.classes[..6].chunks(2);
    assert!(both.clone().all(|classes| classes[1] == 4));
    both.map(|classes| classes[0]).collect()
}

#[test]
fn one_set_of_two_ways() {
    assert_eq!(classes([0x00, 0x10, 0x00], 0, 2, UNKNOWN), [5, 5, 1]);
    assert_eq!(classes([0x00, 0x10, 0x00], 0, 2, EMPTY), [2, 2, 1]);
}

#[test]
fn one_set_of_one_way() {
    assert_eq!(classes([0x00, 0x10, 0x00], 0, 1, UNKNOWN), [5, 2, 2]);
}

#[test]
fn sets_and_ways_are_not_the_same() {
    assert_eq!(classes([0x00, 0x20, 0x00], 0, 2, UNKNOWN), [5, 5, 1]);
    assert_eq!(classes([0x00, 0x20, 0x00], 1, 1, UNKNOWN), [5, 2, 2]);
}
