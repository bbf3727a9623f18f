//! Several faults at once in what a chart is written from: which of them is named.

use charts::{Chart, Record};
use compare::ask::WRITE;
use compare::given::{Given, ADDRESSES, ENTRY, FIRSTS, KINDS, NODES, OUTS, SECONDS, SIZES};
use compare::group::Group;
use second::limits::{self, BLOCKS};

/// Puts a fault into what is given.
type Fault = fn(&mut Given);

/// Each is one beside any others. Those of lengths are the last, so that the others find their nodes.
const FAULTS: [Fault; 27] = [
    |given| given.header[0] = 20,
    |given| given.header[1] = 9,
    |given| given.header[2] = 0,
    |given| given.header[2] = (1 << 32) + 2,
    |given| given.header[3] = 2,
    |given| given.header[3] = 1 << 32,
    |given| given.header[NODES] = 0,
    |given| given.header[NODES] = 5_000,
    |given| given.header[NODES] = limits::NODES as u64 + 1,
    |given| given.header[NODES] |= 1 << 40,
    |given| given.header[ENTRY] = given.header[NODES],
    |given| given.header[ENTRY] = u64::MAX,
    |given| given.lists[SIZES][0] = 1,
    |given| given.lists[SIZES][2] = 1 << 4,
    |given| given.lists[KINDS][3] = 3,
    |given| given.lists[SECONDS][4] = u64::MAX,
    |given| given.lists[OUTS][5] = 3,
    |given| {
        given.lists[KINDS][6] = 1;
        given.lists[ADDRESSES][6] = (1 << 32) - 1;
        given.lists[SIZES][6] = 1;
    },
    |given| given.lists[ADDRESSES][7] = 1 << 32,
    |given| given.lists[FIRSTS][BLOCKS + 6] = (BLOCKS + 8) as u64,
    |given| {
        given.lists[OUTS][BLOCKS + 7] = 2;
        given.lists[SECONDS][BLOCKS + 7] = given.lists[FIRSTS][BLOCKS + 7];
    },
    |given| reads(given, BLOCKS + 1),
    |given| reads(given, BLOCKS + 6),
    |given| given.lists[KINDS].push(0),
    |given| given.lists[FIRSTS].truncate(BLOCKS),
    |given| given.lists[SECONDS].clear(),
    |given| given.lists.iter_mut().for_each(|list| list.push(0)),
];

/// Has the first nodes read a block each.
fn reads(given: &mut Given, blocks: usize) {
    for block in 0..blocks {
        given.lists[KINDS][block] = 1;
        given.lists[ADDRESSES][block] = (block as u64) << 8;
    }
}

/// Some nodes more than a chart has blocks, each a bare step that leads to the next.
fn sound() -> Given {
    let nodes = BLOCKS as u64 + 8;
    let records = (0..nodes).map(|node| Record::step().to((node + 1) % nodes));
    Given::of_chart(&Chart::of(records.collect()))
}

#[test]
fn one_two_or_three_faults_at_once() {
    let mut group = Group::of("faults of what is written, at once");
    let sound = sound();
    for one in 0..FAULTS.len() {
        for two in 0..=one {
            for three in 0..=two {
                let mut given = sound.clone();
                for fault in [three, two, one] {
                    FAULTS[fault](&mut given);
                }
                // one in two with a buffer that is too short, which is a fault too
                let short = group.random.once_in(2);
                group.write_to(&given, sound.used() - usize::from(short));
            }
        }
    }
    let tally = group.end();
    for number in [3, 4, 5, 6, 8, 9, 10] {
        tally.expect_each(WRITE, number..=number, 3);
    }
}
