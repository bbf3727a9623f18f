//! `read`: each number of the header comes from its own field, and a refusal from its own place.

use charts::{Chart, Record};
use veilbuzz::{read, Header, Refusal, Start, BLOCKS};

/// A chart whose header has a different number in each field, and five blocks.
fn chart() -> Chart {
    let addresses = [0x000, 0x040, 0x080, 0x0C0, 0x100, 0x13F, 0x01F];
    let mut chart = Chart::straight(&addresses).shaped(2, 3, 1);
    (chart.header.line, chart.header.entry) = (6, 4);
    chart
}

fn refusal(number: usize, place: usize) -> Result<Header, Refusal> {
    Err(Refusal { number, place })
}

#[test]
fn each_number_of_the_header_is_told_in_its_field() {
    let header = Header {
        line: 6,
        sets: 2,
        ways: 3,
        start: Start::Empty,
        nodes: 7,
        entry: 4,
        blocks: 5,
    };
    assert_eq!(read(&chart().bytes()), Ok(header));
}

#[test]
fn both_starts_are_told() {
    let unknown = chart().shaped(2, 3, 0).bytes();
    assert_eq!(read(&unknown).map(|header| header.start), Ok(Start::Unknown));
}

#[test]
fn the_length_of_the_bytes_counts() {
    let bytes = chart().bytes();
    assert_eq!(read(&bytes[..0]), refusal(1, 0));
    assert_eq!(read(&bytes[..7]), refusal(1, 0));
    assert_eq!(read(&bytes[..bytes.len() - 1]), refusal(8, 0));
}

#[test]
fn a_refusal_tells_its_number_and_its_place() {
    let mut chart = chart();
    chart.records[5].size = 3;
    assert_eq!(read(&chart.bytes()), refusal(9, 5));
    chart.records[3] = chart.records[3].twins(4);
    assert_eq!(read(&chart.bytes()), refusal(9, 3));
    let many: Vec<u64> = (0..BLOCKS as u64 + 6).map(|block| block * 16).collect();
    assert_eq!(read(&Chart::reads(&many).bytes()), refusal(10, BLOCKS));
}

#[test]
fn the_last_byte_brings_a_block_and_has_an_address() {
    let of_size = |address: u64, size| read(&Chart::of(vec![Record::read(address).sized(size)]).bytes());
    let blocks = |address, size| of_size(address, size).map(|header| header.blocks);
    assert_eq!([0, 1, 2].map(|size| blocks(0x0E, size)), [Ok(1), Ok(1), Ok(2)]);
    assert_eq!(blocks(0xFFFF_FFFC, 2), Ok(1));
    assert_eq!(of_size(0xFFFF_FFFD, 2), refusal(9, 0));
    assert_eq!(of_size(0xFFFF_FFFF, 1), refusal(9, 0));
}

#[test]
fn a_chart_without_references_has_no_blocks() {
    let header = read(&Chart::of(vec![Record::step()]).bytes()).expect("the chart is accepted");
    assert_eq!((header.nodes, header.blocks), (1, 0));
}
