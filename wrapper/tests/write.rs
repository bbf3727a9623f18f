//! `write`: each number and each list goes to its own field, and the buffer's length counts.

mod given;

use charts::{Chart, Header, Record};
use given::{chart, Given, LENGTH};
use veilbuzz::{Heading, Refusal, LONGEST, NODES};

type Change<T> = fn(&mut T);

/// Holds the writer to the bytes of a chart and to the tail behind them.
fn makes(mut given: Given, chart: &Chart) {
    let bytes = chart.bytes();
    let mut expected = given.lent.clone();
    expected[..bytes.len()].copy_from_slice(&bytes);
    assert_eq!(given.write(), Ok(bytes.len()));
    assert_eq!(given.lent, expected);
}

#[test]
fn a_chart_is_written_from_its_fields_and_the_tail_stays() {
    for chart in [chart(), Chart::sample()] {
        makes(Given::of(&chart), &chart);
    }
}

#[test]
fn each_number_of_the_heading_goes_to_its_field() {
    let changes: [(Change<Heading>, Change<Header>); 5] = [
        (|heading| heading.line = 8, |header| header.line = 8),
        (|heading| heading.sets = 7, |header| header.sets = 7),
        (|heading| heading.ways = 1, |header| header.ways = 1),
        (|heading| heading.start = 0, |header| header.start = 0),
        (|heading| heading.entry = 2, |header| header.entry = 2),
    ];
    for (in_heading, in_header) in changes {
        let (mut given, mut chart) = (Given::of(&chart()), chart());
        in_heading(&mut given.heading);
        in_header(&mut chart.header);
        makes(given, &chart);
    }
    // the number of nodes, with a node more
    let (mut given, mut chart) = (Given::of(&chart()), chart());
    given.heading.nodes += 1;
    given.lists().into_iter().for_each(|list| list.push(0));
    chart.header.nodes += 1;
    chart.records.push(Record::step());
    makes(given, &chart);
}

#[test]
fn each_list_goes_to_its_field() {
    let changes: [(Change<Given>, usize, Change<Record>); 6] = [
        (|given| given.kinds[0] = 2, 0, |record| record.kind = 2),
        (|given| given.addresses[2] = 0x8001, 2, |record| record.address = 0x8001),
        (|given| given.sizes[4] = 1, 4, |record| record.size = 1),
        (|given| given.outs[4] = 2, 4, |record| record.outs = 2),
        (|given| given.firsts[1] = 4, 1, |record| record.first = 4),
        (|given| given.seconds[0] = 4, 0, |record| record.second = 4),
    ];
    for (in_list, node, in_record) in changes {
        let (mut given, mut chart) = (Given::of(&chart()), chart());
        in_list(&mut given);
        in_record(&mut chart.records[node]);
        makes(given, &chart);
    }
}

#[test]
fn buffers_of_every_length() {
    for length in 0..LENGTH + 20 {
        let mut given = Given::of(&chart());
        given.lent = vec![77; length];
        if length < LENGTH {
            assert_eq!(given.write(), Err(Refusal { number: 11, place: 0 }), "{length} bytes");
        } else {
            makes(given, &chart());
        }
    }
}

#[test]
fn a_chart_has_one_node_or_the_most() {
    for nodes in [1, NODES] {
        let chart = Chart::steps(nodes);
        makes(Given::of(&chart), &chart);
    }
    assert_eq!(Given::of(&Chart::steps(NODES)).write(), Ok(LONGEST));
}
