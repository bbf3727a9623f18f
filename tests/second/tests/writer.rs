//! What is written: the sample from its numbers, into buffers of every length, and that reading undoes it.

mod given;

use charts::random::Random;
use charts::random_charts::{damaged, whole};
use charts::{Chart, Header, Record};
use given::Given;
use second::chart;
use second::header::HeaderFields;
use second::node::node;
use second::record::RecordFields;
use second::refusal::Refusal;
use second::writer::{packed, records, write};

/// The sample's bytes, as section 14 of docs/RULES.md has them.
const SAMPLE: [u8; 32] = [
    0x01, 0x40, 0x24, 0x00, 0x00, 0x30, 0x00, 0x00, //
    0x00, 0x00, 0x00, 0x00, 0x10, 0x01, 0x00, 0x00, //
    0x40, 0x00, 0x00, 0x00, 0x20, 0x01, 0x00, 0x20, //
    0x40, 0x00, 0x00, 0x00, 0x00, 0x00, 0x00, 0x00,
];

#[test]
fn the_sample_is_made_from_its_numbers() {
    let header = HeaderFields {
        line: 4,
        sets: 0,
        ways: 2,
        start: 1,
        nodes: 3,
        entry: 0,
    };
    let (kinds, addresses, sizes) = ([0, 1, 1], [0, 0, 0], [0, 0, 0]);
    let (outs, firsts, seconds) = ([1, 2, 0], [1, 1, 0], [0, 2, 0]);
    let mut lent = [77; 32];
    let answer = write(
        header,
        [&kinds, &addresses, &sizes, &outs, &firsts, &seconds],
        &mut lent,
    );
    assert_eq!(answer, Ok(32));
    assert_eq!(lent, SAMPLE);
}

#[test]
fn a_buffer_of_every_length_is_written_or_left_as_it_was() {
    let given = Given::chart(&Chart::sample());
    for length in 0..=SAMPLE.len() + 3 {
        let mut lent: Vec<u8> = (0..length).map(|place| 200 - place as u8).collect();
        let mut left = lent.clone();
        let answer = given.write(&mut lent);
        if length < SAMPLE.len() {
            assert_eq!(answer, Err(Refusal::of(11)), "{length} bytes");
        } else {
            assert_eq!(answer, Ok(SAMPLE.len()), "{length} bytes");
            left[..SAMPLE.len()].copy_from_slice(&SAMPLE);
        }
        assert_eq!(lent, left, "{length} bytes");
    }
}

#[test]
fn every_number_has_the_bits_that_another_packing_gives_it() {
    let mut random = Random::new(15);
    for _ in 0..2_000 {
        let mut any = |width: u32| random.below(1 << width);
        let header = Header {
            edition: 1,
            line: any(4),
            sets: any(4),
            ways: any(4),
            start: any(2),
            spare: 0,
            nodes: any(12),
            entry: any(12),
            tail: 0,
        };
        let record = |_| Record {
            kind: any(2),
            address: any(32),
            outs: any(2),
            first: any(12),
            second: any(12),
            size: any(4),
        };
        let chart = Chart {
            header,
            records: (0..5).map(record).collect(),
        };
        let given = Given::chart(&chart);
        let records = records(given.lists(), 5).expect("the lists are so long");
        assert_eq!(packed(given.header, &records), chart.bytes());
    }
}

/// What a chart is to be written from again: its header's numbers, and each node's, asked for one by one.
fn read(bytes: &[u8]) -> Result<Given, Refusal> {
    let header = chart::Chart::read(bytes)?.header;
    let record = |number| node(bytes, number).map(|node| node.expect("there is such a node"));
    let records: Result<Vec<RecordFields>, Refusal> = (0..header.nodes).map(record).collect();
    Ok(Given::of(header.fields(), &records?))
}

#[test]
fn what_is_written_reads_back_to_the_same_numbers() {
    let mut random = Random::new(16);
    let mut written = 0;
    for _ in 0..300 {
        let given = Given::chart(&whole(&mut random));
        // such a chart may have a block too many
        let Ok(bytes) = given.written() else { continue };
        assert_eq!(read(&bytes), Ok(given));
        written += 1;
    }
    assert!(written > 200, "only {written} were written");
}

#[test]
fn an_accepted_chart_read_and_written_again_has_the_same_bytes() {
    let mut random = Random::new(17);
    let mut accepted = 0;
    for _ in 0..600 {
        let chart = whole(&mut random);
        let bytes = damaged(&mut random, chart);
        let Ok(given) = read(&bytes) else { continue };
        assert_eq!(given.written(), Ok(bytes));
        accepted += 1;
    }
    assert!(accepted > 200, "only {accepted} were accepted");
}
