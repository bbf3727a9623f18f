//! Numbers too wide for their fields, and lists that are longer or shorter than N.

mod given;

use charts::Chart;
use given::Given;
use second::header::HeaderFields;
use second::limits::NODES;
use second::refusal::Refusal;

/// A number's lowest bits, which alone would be allowed, with others in front of them: the first past the field, the first past 32 bits,
/// the highest, all.
fn too_wide(allowed: u64, width: u32) -> [u64; 6] {
    let highest = 1 << 63;
    [
        allowed | 1 << width,
        allowed | 1 << 32,
        allowed | 1 << 40,
        allowed | highest,
        allowed | u64::MAX << width,
        u64::MAX,
    ]
}

/// The refusal of the sample after a change.
fn refusal(change: impl FnOnce(&mut Given)) -> Option<Refusal> {
    let mut given = Given::chart(&Chart::sample());
    change(&mut given);
    given.written().err()
}

/// The refusal of the sample with another number in its header.
fn with_header(place: usize, number: u64) -> Option<Refusal> {
    refusal(|given| {
        let mut numbers = given.header.numbers();
        numbers[place] = number;
        given.header = HeaderFields::of(numbers);
    })
}

#[test]
fn a_header_number_too_wide_breaks_the_rule_of_its_field() {
    let sample = Given::chart(&Chart::sample()).header.numbers();
    let fields = [(4, 3), (4, 3), (4, 3), (2, 4), (12, 5), (12, 6)];
    for (place, (width, number)) in fields.into_iter().enumerate() {
        assert_eq!(with_header(place, sample[place]), None);
        for wide in too_wide(sample[place], width) {
            let refused = Some(Refusal::of(number));
            assert_eq!(with_header(place, wide), refused, "{wide} in place {place}");
        }
    }
    assert_eq!(with_header(0, 20), Some(Refusal::of(3)));
    assert_eq!(with_header(4, 5_000), Some(Refusal::of(5)));
}

#[test]
fn a_nodes_number_too_wide_breaks_its_record() {
    let sample = Given::chart(&Chart::sample());
    for (list, width) in [2, 32, 4, 2, 12, 12].into_iter().enumerate() {
        for node in 0..3 {
            for wide in too_wide(sample.lists[list][node], width) {
                let refused = Some(Refusal::at(9, node));
                assert_eq!(
                    refusal(|given| given.lists[list][node] = wide),
                    refused,
                    "{wide} in list {list}"
                );
            }
        }
    }
}

#[test]
fn the_last_byte_of_a_wide_address_is_past_the_last_address() {
    let at = |address: u64, size: u64| {
        refusal(|given| {
            given.lists[1][2] = address;
            given.lists[2][2] = size;
        })
    };
    for (size, last) in [(0, 0xFFFF_FFFF), (1, 0xFFFF_FFFE), (2, 0xFFFF_FFFC)] {
        assert_eq!(at(last, size), None);
        // where a sum of 32 or of 64 bits would begin again at 0
        for address in [last + 1, 0xFFFF_FFFF + 1, 1 << 33, u64::MAX - 3, u64::MAX - 1, u64::MAX] {
            assert_eq!(at(address, size), Some(Refusal::at(9, 2)), "{address} of size {size}");
        }
    }
}

#[test]
fn all_numbers_the_widest_are_refused_one_after_another() {
    let sample = Given::chart(&Chart::sample());
    let mut given = sample.clone();
    given.header = HeaderFields::of([u64::MAX; 6]);
    given.lists = [(); 6].map(|()| vec![u64::MAX; 3]);
    let mut refused = Vec::new();
    // mended one after another, in the order in which they are refused
    for place in 0..6 {
        refused.push(given.written().expect_err("there are faults left"));
        let mut numbers = given.header.numbers();
        numbers[place] = sample.header.numbers()[place];
        given.header = HeaderFields::of(numbers);
    }
    for node in 0..3 {
        refused.push(given.written().expect_err("there are faults left"));
        for (list, right) in given.lists.iter_mut().zip(&sample.lists) {
            list[node] = right[node];
        }
    }
    let numbers = [3, 3, 3, 4, 5, 6].map(Refusal::of);
    let nodes = [0, 1, 2].map(|node| Refusal::at(9, node));
    assert_eq!(refused, [&numbers[..], &nodes].concat());
    assert_eq!(given.written(), sample.written());
}

#[test]
fn each_list_alone_of_another_length_is_refused() {
    for chart in [Chart::sample(), Chart::steps(1), Chart::steps(NODES)] {
        let nodes = chart.records.len();
        for list in 0..6 {
            for length in [0, nodes - 1, nodes + 1, nodes + 2, 2 * nodes, 5_000] {
                let mut given = Given::chart(&chart);
                given.lists[list].resize(length, 0);
                assert_eq!(given.written(), Err(Refusal::of(8)), "list {list} of {length}");
            }
        }
    }
}

#[test]
fn lists_that_are_all_longer_or_shorter_than_n_are_refused() {
    for length in (0..=6).filter(|&length| length != 3) {
        let all = |given: &mut Given| given.lists.iter_mut().for_each(|list| list.resize(length, 0));
        assert_eq!(refusal(all), Some(Refusal::of(8)), "all of {length}");
    }
    for nodes in [1, 2, 4, NODES as u64] {
        assert_eq!(with_header(4, nodes), Some(Refusal::of(8)), "{nodes} nodes");
    }
}
