//! `write`: what is refused, with which number and place, and which refusal is given first. That none changes the buffer, `Given` sees.

mod given;

use charts::{Chart, Record};
use given::{chart, Given, LENGTH, NODES};
use veilbuzz::{Heading, Refusal, BLOCKS};

/// The answer after a change of what is given for the chart.
fn after(change: impl FnOnce(&mut Given)) -> Result<usize, Refusal> {
    let mut given = Given::of(&chart());
    change(&mut given);
    given.write()
}

fn refusal(number: usize, place: usize) -> Result<usize, Refusal> {
    Err(Refusal { number, place })
}

#[test]
fn a_heading_is_refused_as_a_header_is() {
    type Change = fn(&mut Heading, u64);
    // the last one of each list, cut to its field, would be what stands there
    let refused: [(usize, Change, &[u64]); 6] = [
        (3, |heading, line| heading.line = line, &[0, 1, 9, 15, 20, 16 + 6]),
        (3, |heading, sets| heading.sets = sets, &[9, 15, 16, 16 + 2]),
        (3, |heading, ways| heading.ways = ways, &[0, 9, 15, 16 + 3]),
        (4, |heading, start| heading.start = start, &[2, 3, 4, 4 + 1]),
        (5, |heading, nodes| heading.nodes = nodes, &[0, 4095, 5000, 4096 + 5]),
        (6, |heading, entry| heading.entry = entry, &[5, 6, 4095, 4096 + 4]),
    ];
    for (number, change, numbers) in refused {
        for &value in numbers.iter().chain(&[1 << 32, 1 << 63, u64::MAX - 1, u64::MAX]) {
            let answer = after(|given| change(&mut given.heading, value));
            assert_eq!(answer, refusal(number, 0), "{value}");
        }
    }
    let one_too_many = Chart::steps(veilbuzz::NODES + 1);
    assert_eq!(Given::of(&one_too_many).write(), refusal(5, 0));
}

#[test]
fn each_list_has_its_own_length() {
    for list in 0..6 {
        for length in [0, 1, NODES - 1, NODES + 1, 5000] {
            assert_eq!(after(|given| given.lists()[list].resize(length, 0)), refusal(8, 0));
        }
    }
    for length in [0, NODES - 1, NODES + 1] {
        let all = |given: &mut Given| given.lists().into_iter().for_each(|list| list.resize(length, 0));
        assert_eq!(after(all), refusal(8, 0));
    }
}

#[test]
fn a_number_too_wide_for_its_field_is_refused_at_its_node() {
    // kind, address, size code, number of arrows and the arrows, in bits
    for (list, width) in [2, 32, 4, 2, 12, 12].into_iter().enumerate() {
        for node in 0..NODES {
            let own = Given::of(&chart()).lists()[list][node];
            // all but the last three, cut to the field, would be what stands there
            let cut = [own + (1 << width), own + (1 << 32), own + (1 << 63)];
            for wide in cut.into_iter().chain([1 << 62, u64::MAX - 3, u64::MAX]) {
                let answer = after(|given| given.lists()[list][node] = wide);
                assert_eq!(answer, refusal(9, node), "{wide} in list {list}");
            }
        }
    }
}

#[test]
fn a_node_is_refused_that_breaks_the_rules_of_a_record() {
    let step = Record::step();
    let broken = [
        Record { kind: 3, ..step },
        Record { address: 1, ..step },
        step.sized(1),
        Record::read(0).sized(3),
        Record::read(0xFFFF_FFFF).sized(1),
        Record::write(0xFFFF_FFFD).sized(2),
        Record { outs: 3, ..step },
        Record { first: 1, ..step },
        Record { second: 1, ..step },
        Record {
            second: 1,
            ..step.to(0)
        },
        step.to(5),
        step.to(0).to(5),
        step.twins(0),
        Record::read(0).twins(4),
    ];
    let kept = [
        Record::write(0xFFFF_FFFF),
        Record::read(0xFFFF_FFFE).sized(1),
        Record::write(0xFFFF_FFFC).sized(2),
        step.to(0),
        step.to(4).to(0),
        step.to(3).to(4),
    ];
    for node in 0..NODES {
        let with = |record| {
            let mut chart = chart();
            chart.records[node] = record;
            Given::of(&chart).write()
        };
        for record in broken {
            assert_eq!(with(record), refusal(9, node), "{record:?}");
        }
        for record in kept {
            assert_eq!(with(record), Ok(LENGTH), "{record:?}");
        }
    }
}

#[test]
fn the_first_of_several_nodes_is_told() {
    let answer = after(|given| {
        given.kinds[3] = 3;
        given.seconds[1] = u64::MAX;
    });
    assert_eq!(answer, refusal(9, 1));
}

#[test]
fn the_node_that_brings_a_block_too_many_is_told() {
    // every other block, so that what goes over the end of a line brings one more
    let reads = |nodes| Chart::reads(&(0..nodes).map(|node| node as u64 * 32).collect::<Vec<_>>());
    let written = |chart: &Chart| Given::of(chart).write();
    assert_eq!(written(&reads(BLOCKS)), Ok(8 + 8 * BLOCKS));
    assert_eq!(written(&reads(BLOCKS + 2)), refusal(10, BLOCKS));
    let last = BLOCKS - 1;
    let mut over = reads(BLOCKS);
    over.records[last] = Record::read(last as u64 * 32 + 14).sized(2);
    assert_eq!(written(&over), refusal(10, last));
    over.records[last] = over.records[last].sized(1);
    assert_eq!(written(&over), Ok(8 + 8 * BLOCKS));
}

#[test]
fn the_first_refusal_that_applies_is_given() {
    type Spoil = fn(&mut Given);
    // the node that breaks a rule comes after the one that brings a block too many
    let given = || Given::of(&Chart::reads(&[0; BLOCKS + 2]));
    let faults: [(Result<usize, Refusal>, Spoil); 8] = [
        (refusal(3, 0), |given| given.heading.ways = u64::MAX),
        (refusal(4, 0), |given| given.heading.start = 2),
        (refusal(5, 0), |given| given.heading.nodes = 0),
        (refusal(6, 0), |given| given.heading.entry = u64::MAX),
        (refusal(8, 0), |given| {
            given.lists().into_iter().for_each(|list| list.push(0))
        }),
        (refusal(9, BLOCKS + 1), |given| given.kinds[BLOCKS + 1] = 3),
        (refusal(10, BLOCKS), |given| {
            given.addresses = (0..BLOCKS as u64 + 2).map(|node| node * 16).collect();
        }),
        (refusal(11, 0), |given| given.lent.truncate(8 + 8 * (BLOCKS + 2) - 1)),
    ];
    for first in 0..faults.len() {
        let mut given = given();
        for (_, spoil) in &faults[first..] {
            spoil(&mut given);
        }
        assert_eq!(given.write(), faults[first].0);
    }
    assert_eq!(given().write(), Ok(8 + 8 * (BLOCKS + 2)));
}
