//! Which refusal is given for what a chart is to be written from, and at which node: of several faults the first.

mod given;

use charts::random::Random;
use charts::random_charts::whole;
use charts::{Chart, Record};
use given::Given;
use second::chart;
use second::header::HeaderFields;
use second::limits::BLOCKS;
use second::refusal::Refusal;
use second::writer::{packed, records};

const NODES: usize = BLOCKS + 8;

/// A refusal's number and place, and a change that brings it about.
type Fault = (usize, usize, fn(&mut Given));

/// A fault for each refusal but that of a short buffer. The broken record stands behind the node that brings a block too many.
const FAULTS: [Fault; 7] = [
    (3, 0, |given| given.header.ways = 9),
    (4, 0, |given| given.header.start = 2),
    (5, 0, |given| given.header.nodes = 0),
    (6, 0, |given| given.header.entry = NODES as u64),
    (8, 0, |given| given.lists[4].push(0)),
    (9, NODES - 1, |given| given.lists[2][NODES - 1] = 3),
    (10, BLOCKS, |given| {
        let block = |node| 16 * node as u64;
        given.lists[1] = (0..NODES).map(block).collect();
    }),
];

/// Reads of two blocks in a row.
fn sound() -> Given {
    let addresses: Vec<u64> = (0..NODES as u64).map(|node| node % 2 * 16).collect();
    Given::chart(&Chart::straight(&addresses))
}

#[test]
fn the_first_fault_of_any_is_refused_and_a_short_buffer_is_the_last() {
    for faults in 0..1 << FAULTS.len() {
        let mut given = sound();
        let mut first = None;
        for (bit, (number, place, change)) in FAULTS.into_iter().enumerate() {
            if faults >> bit & 1 == 1 {
                change(&mut given);
                first = first.or(Some(Refusal::at(number, place)));
            }
        }
        assert_eq!(given.written().err(), first, "faults {faults:b}");
        let mut short = [77; 8 + 8 * NODES - 1];
        let refusal = first.unwrap_or(Refusal::of(11));
        assert_eq!(given.write(&mut short), Err(refusal), "faults {faults:b}");
        assert!(short.iter().all(|&byte| byte == 77));
    }
}

/// Records that break one rule each, in a chart of four nodes.
fn broken() -> [Record; 15] {
    let (step, read) = (Record::step(), Record::read(0x20));
    [
        Record { kind: 3, ..read },
        Record { address: 1, ..step },
        step.sized(1),
        step.sized(2),
        read.sized(3),
        Record::write(0xFFFF_FFFF).sized(1),
        Record::read(0xFFFF_FFFD).sized(2),
        Record { outs: 3, ..step },
        Record { first: 1, ..step },
        Record { second: 1, ..read },
        Record {
            second: 1,
            ..read.to(0)
        },
        step.to(4),
        read.to(4).to(1),
        read.to(1).to(4),
        read.twins(2),
    ]
}

#[test]
fn a_broken_record_is_refused_where_the_first_one_is() {
    for record in broken() {
        for node in 0..4 {
            let mut chart = Chart::steps(4);
            chart.records[node] = record;
            let refused = Err(Refusal::at(9, node));
            assert_eq!(Given::chart(&chart).written(), refused, "{record:?}");
            // whatever stands behind it
            for later in broken() {
                chart.records[3] = if node < 3 { later } else { record };
                assert_eq!(Given::chart(&chart).written(), refused, "{record:?} and {later:?}");
            }
        }
    }
}

#[test]
fn one_block_too_many_is_refused_at_the_node_that_brings_it() {
    // reads of so many blocks from block 100 on, and then of the last byte of a block and the first of the next
    let refusal = |blocks: usize, lower: u64| {
        let reads = (0..blocks as u64).map(|block| Record::read((100 + block) * 16));
        let both = Record::read(lower * 16 + 15).sized(1);
        let records = reads.chain([both, Record::step()]).collect();
        Given::chart(&Chart::of(records)).written().err()
    };
    let at = |node| Some(Refusal::at(10, node));
    assert_eq!(refusal(BLOCKS - 2, 0), None);
    // the first that does not fit is the upper, and then the lower
    assert_eq!(refusal(BLOCKS - 1, 0), at(BLOCKS - 1));
    assert_eq!(refusal(BLOCKS, 0), at(BLOCKS));
    // only what is new counts
    assert_eq!(refusal(BLOCKS, 100), None);
    assert_eq!(refusal(BLOCKS, 99), at(BLOCKS));
}

/// The bytes are made without a rule, and the lists may be longer or shorter than the header says.
#[test]
fn numbers_that_fit_their_fields_are_refused_as_the_reader_refuses_their_bytes() {
    let mut random = Random::new(18);
    let mut met = [0; 12];
    for _ in 0..3_000 {
        let mut given = Given::chart(&whole(&mut random));
        let mut header = given.header.numbers();
        for (number, width) in header.iter_mut().zip([4, 4, 4, 2, 12, 12]) {
            if random.once_in(12) {
                *number = random.below(1 << width);
            }
        }
        given.header = HeaderFields::of(header);
        for (list, width) in given.lists.iter_mut().zip([2, 32, 4, 2, 12, 12]) {
            if random.once_in(20) {
                let node = random.below(list.len() as u64) as usize;
                list[node] = random.below(1 << width);
            }
        }
        let length = given.lists[0].len();
        let records = records(given.lists(), length).expect("the lists are equally long");
        let bytes = packed(given.header, &records);
        let reader = chart::Chart::read(&bytes);
        assert_eq!(given.written(), reader.map(|_| bytes.clone()));
        met[given.written().map_or_else(|refusal| refusal.number, |_| 0)] += 1;
    }
    for number in [0, 3, 4, 5, 6, 8, 9, 10] {
        assert!(met[number] >= 10, "refusal {number} came {} times", met[number]);
    }
}
