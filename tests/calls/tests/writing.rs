//! So that a run is no idle one: what the calls of veilbuzz_node and veilbuzz_write among the gate's shortest file have among them.

use calls::given::{HEADER_WIDTHS, LIST_WIDTHS};
use calls::{Case, Function, SEED};
use charts::sizes::size_alone;
use charts::twins::twins_alone;
use charts::Record;

fn cases_of(function: Function) -> impl Iterator<Item = Case> {
    (0..60_000)
        .map(|number| calls::case(SEED, number))
        .filter(move |case| case.function == function)
}

/// The six numbers of a node that the writer is given, in the order of its lists.
fn given(case: &Case, node: usize) -> [u64; 6] {
    std::array::from_fn(|list| case.buffers[list].elements::<u64>()[node])
}

/// The place that a refusal tells.
fn place(case: &Case) -> usize {
    case.buffers[7].elements::<u64>()[1] as usize
}

#[test]
fn nodes_are_asked_for_that_there_are_and_that_there_are_not() {
    let mut times = [0, 0];
    for case in cases_of(Function::Node).filter(|case| case.returned == 0) {
        let there = case.buffers[2].elements::<u64>()[2] as usize;
        times[there] += 1;
    }
    assert!(times.iter().all(|&times| times >= 200), "{times:?}");
}

#[test]
fn each_list_alone_is_longer_and_shorter_than_the_others() {
    let mut times = [[0, 0]; 6];
    for case in cases_of(Function::Write).filter(|case| case.returned == 8) {
        let lengths: Vec<u64> = case.buffers[..6].iter().map(|list| list.length as u64).collect();
        let nodes = case.numbers[4];
        let others: Vec<usize> = (0..6).filter(|&list| lengths[list] != nodes).collect();
        if let [other] = others[..] {
            times[other][usize::from(lengths[other] > nodes)] += 1;
        }
    }
    assert!(times.as_flattened().iter().all(|&times| times >= 5), "{times:?}");
}

#[test]
fn each_number_of_the_header_is_too_wide_and_refused() {
    let mut times = [0; 6];
    for case in cases_of(Function::Write) {
        let refused = [3, 3, 3, 4, 5, 6];
        for field in 0..6 {
            let wide = case.numbers[field] >> HEADER_WIDTHS[field] != 0;
            times[field] += usize::from(wide && case.returned == refused[field]);
        }
    }
    assert!(times.iter().all(|&times| times >= 10), "{times:?}");
}

#[test]
fn each_field_of_a_node_is_too_wide_and_refused() {
    let mut times = [0; 6];
    for case in cases_of(Function::Write).filter(|case| case.returned == 9) {
        let numbers = given(&case, place(&case));
        for field in 0..6 {
            times[field] += usize::from(numbers[field] >> LIST_WIDTHS[field] != 0);
        }
    }
    assert!(times.iter().all(|&times| times >= 10), "{times:?}");
}

#[test]
fn the_writer_refuses_two_arrows_to_one_node_and_sizes() {
    let (mut twins, mut sizes) = (0, 0);
    for case in cases_of(Function::Write).filter(|case| case.returned == 9) {
        let numbers = given(&case, place(&case));
        if (0..6).any(|field| numbers[field] >> LIST_WIDTHS[field] != 0) {
            continue;
        }
        let [kind, address, size, outs, first, second] = numbers;
        let record = Record {
            kind,
            address,
            outs,
            first,
            second,
            size,
        };
        let nodes = case.numbers[4] as usize;
        twins += usize::from(twins_alone(record.bytes(), nodes));
        sizes += usize::from(size_alone(record.bytes(), nodes));
    }
    assert!(twins >= 10 && sizes >= 10, "{twins} and {sizes}");
}
