//! The writer's lists and its buffer with each length around the right one.

use crate::buffers::choices;
use charts::{Chart, Record};
use compare::ask::WRITE;
use compare::given::Given;
use compare::group::Group;
use second::limits::{length, BLOCKS, NODES};

#[test]
fn every_choice_of_lengths_for_the_six_lists() {
    let mut group = Group::of("lists of the writer");
    for nodes in [2, 3] {
        let base = Given::of_chart(&Chart::steps(nodes));
        for lengths in choices([nodes; 6]) {
            let mut given = base.clone();
            for (list, length) in given.lists.iter_mut().zip(lengths) {
                list.resize(length, 0);
            }
            group.write_to(&given, length(nodes) + 2);
        }
    }
    let tally = group.end();
    assert_eq!(tally.count(WRITE, 0), 2);
    assert_eq!(tally.count(WRITE, 8), 2 * (5_u64.pow(6) - 1));
}

#[test]
fn every_length_of_the_buffer() {
    let mut group = Group::of("buffers of the writer");
    let reads: Vec<u64> = (0..BLOCKS as u64).map(|block| block * 16).collect();
    for chart in [
        Chart::sample(),
        Chart::of(vec![Record::read(0)]),
        Chart::straight(&reads),
    ] {
        let given = Given::of_chart(&chart);
        for length in 0..=given.used() + 3 {
            group.write_to(&given, length);
        }
    }
    let tally = group.end();
    assert_eq!(tally.count(WRITE, 0), 3 * 4);
    assert_eq!(tally.count(WRITE, 11), (length(3) + length(1) + length(BLOCKS)) as u64);
}

#[test]
fn every_length_around_that_of_the_largest_chart() {
    let mut group = Group::of("buffers for the largest chart");
    let given = Given::of_chart(&Chart::steps(NODES));
    let used = given.used();
    for length in [0, 1, 8, used / 2]
        .into_iter()
        .chain(used - 9..used + 9)
        .chain([2 * used])
    {
        group.write_to(&given, length);
    }
    let tally = group.end();
    assert_eq!([0, 11].map(|number| tally.count(WRITE, number)), [9 + 1, 4 + 9]);
}
