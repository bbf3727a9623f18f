//! So that a run is no idle one: what the first cases of the gate's file have among them.

use calls::{Case, Function, SEED};
use charts::sizes::size_alone;
use charts::twins::{record_of, twins_alone};
use second::chart::Chart;
use std::collections::BTreeMap;

/// As many as the run under valgrind has, the shortest of all.
const CASES: u64 = 60_000;

fn cases() -> impl Iterator<Item = Case> {
    (0..CASES).map(|number| calls::case(SEED, number))
}

/// How often each key occurs.
fn tally<K: Ord>(keys: impl Iterator<Item = K>) -> BTreeMap<K, usize> {
    let mut times = BTreeMap::new();
    for key in keys {
        *times.entry(key).or_insert(0) += 1;
    }
    times
}

/// Which numbers each function returns: 0 and its refusals.
const RETURNED: [(Function, &[u64]); 9] = [
    (Function::Read, &[0, 1, 2, 3, 4, 5, 6, 7, 8, 9, 10, 11]),
    (Function::Analyse, &[0, 1, 2, 3, 4, 5, 6, 7, 8, 9, 10, 11, 12]),
    (Function::Check, &[0, 1, 2, 3, 4, 5, 6, 7, 8, 9, 10, 11]),
    (
        Function::Total,
        &[0, 1, 2, 3, 4, 5, 6, 7, 8, 9, 10, 11, 13, 14, 15, 16, 17],
    ),
    (Function::Node, &[0, 1, 2, 3, 4, 5, 6, 7, 8, 9, 10, 11]),
    (Function::Blocks, &[0, 1, 2, 3, 4, 5, 6, 7, 8, 9, 10, 11]),
    (Function::Write, &[0, 3, 4, 5, 6, 8, 9, 10, 11]),
    (
        Function::Deadline,
        &[0, 1, 2, 3, 4, 5, 6, 7, 8, 9, 10, 11, 13, 14, 15, 16, 17, 18],
    ),
    (
        Function::Bound,
        &[0, 1, 2, 3, 4, 5, 6, 7, 8, 9, 10, 11, 13, 15, 23, 24, 25],
    ),
];

#[test]
fn each_function_gives_each_of_its_refusals_and_no_other() {
    let met = tally(cases().map(|case| (case.function, case.returned)));
    for (function, numbers) in RETURNED {
        for &number in numbers {
            let times = met.get(&(function, number)).copied().unwrap_or(0);
            assert!(times >= 5, "{function:?} returns {number} only {times} times");
        }
        let other = met.keys().find(|key| key.0 == function && !numbers.contains(&key.1));
        assert_eq!(other, None);
    }
}

/// The chart of a case that reads one.
fn chart(case: &Case) -> Option<Vec<u8>> {
    (case.function != Function::Write).then(|| case.buffers[0].elements::<u8>())
}

/// Holds each function that reads a chart to refusing such records, in a chart of so many nodes, so often.
fn each_function_refuses(least: usize, fault: fn([u8; 8], usize) -> bool) {
    let faulty = |case: &Case| {
        chart(case).is_some_and(|chart| {
            Chart::read(&chart).is_err_and(|refusal| {
                refusal.number == 9 && fault(record_of(&chart, refusal.place), chart.len() / 8 - 1)
            })
        })
    };
    let refused = cases().filter(|case| case.returned == 9 && faulty(case));
    let met = tally(refused.map(|case| case.function));
    assert!(met.len() == 8 && met.values().all(|&times| times >= least), "{met:?}");
}

#[test]
fn each_function_refuses_two_arrows_to_one_node() {
    each_function_refuses(20, twins_alone);
}

#[test]
fn each_function_refuses_a_record_for_its_size() {
    each_function_refuses(10, size_alone);
}

/// The buffers that refusal 11 speaks of, by their places among the parameters.
const REFUSED_IF_SHORT: [(Function, &[usize]); 9] = [
    (Function::Read, &[1, 2]),
    (Function::Analyse, &[1, 2, 3, 4, 5, 6]),
    (Function::Check, &[1, 2, 3, 4]),
    (Function::Total, &[1, 2, 3, 6]),
    (Function::Node, &[1, 2]),
    (Function::Blocks, &[1, 2]),
    (Function::Write, &[6, 7]),
    (Function::Deadline, &[1, 2, 3, 6, 7]),
    (Function::Bound, &[1, 2, 3, 8]),
];

#[test]
fn each_buffer_alone_is_too_short() {
    let short = |case: &Case| -> Vec<usize> {
        (0..case.buffers.len())
            .filter(|&place| case.buffers[place].is_short())
            .collect()
    };
    let met = tally(
        cases()
            .filter(|case| case.returned == 11)
            .map(|case| (case.function, short(&case))),
    );
    for (function, places) in REFUSED_IF_SHORT {
        for &place in places {
            let times = met.get(&(function, vec![place])).copied().unwrap_or(0);
            assert!(
                times >= 5,
                "buffer {place} of {function:?} alone is short only {times} times"
            );
        }
    }
}

#[test]
fn each_buffer_of_an_accepted_call_is_longer_just_right_and_empty() {
    let met = tally(cases().filter(|case| case.returned == 0).flat_map(|case| {
        let function = case.function;
        let shape = move |(place, buffer): (usize, &calls::Buffer)| {
            let kind = if buffer.length == 0 {
                "empty"
            } else if buffer.length > buffer.needed {
                "longer"
            } else {
                "just right"
            };
            (function, place, kind)
        };
        case.buffers.iter().enumerate().map(shape).collect::<Vec<_>>()
    }));
    for (function, places) in REFUSED_IF_SHORT {
        for &place in places {
            for kind in ["longer", "just right"] {
                let times = met.get(&(function, place, kind)).copied().unwrap_or(0);
                assert!(
                    times >= 100,
                    "buffer {place} of {function:?} is {kind} only {times} times"
                );
            }
        }
    }
    // Block numbers and ages of a chart of bare steps.
    for function in [
        Function::Analyse,
        Function::Check,
        Function::Total,
        Function::Blocks,
        Function::Deadline,
        Function::Bound,
    ] {
        let times = met.get(&(function, 1, "empty")).copied().unwrap_or(0);
        assert!(times >= 5, "buffer 1 of {function:?} is empty only {times} times");
    }
}

#[test]
fn each_buffer_is_empty_and_then_lent_as_no_memory_at_all() {
    let met = tally(cases().flat_map(|case| {
        let empty = |&place: &usize| case.buffers[place].length == 0;
        let places: Vec<usize> = (0..case.buffers.len()).filter(empty).collect();
        places.into_iter().map(move |place| (case.function, place))
    }));
    for (function, buffers) in [
        (Function::Read, 3),
        (Function::Analyse, 7),
        (Function::Check, 5),
        (Function::Total, 7),
        (Function::Node, 3),
        (Function::Blocks, 3),
        (Function::Write, 8),
        (Function::Deadline, 8),
        (Function::Bound, 9),
    ] {
        for place in 0..buffers {
            let times = met.get(&(function, place)).copied().unwrap_or(0);
            assert!(times >= 1, "buffer {place} of {function:?} is never empty");
        }
    }
}

#[test]
fn a_call_without_room_for_its_answer_is_11_whatever_else_is_lent() {
    let short = |case: &Case| case.lists().iter().any(calls::Buffer::is_short);
    let met = tally(cases().filter(short).map(|case| (case.function, case.returned)));
    assert_eq!(met.keys().filter(|key| key.1 != 11).count(), 0);
    assert!(met.len() == 9 && met.values().all(|&times| times >= 500), "{met:?}");
}

#[test]
fn lists_of_numbers_have_0_to_10_places() {
    let met = tally(cases().flat_map(|case| {
        let first = case.buffers.len() - case.lists().len();
        let list = |place: usize| (case.function, place, case.buffers[place].length);
        (first..case.buffers.len()).map(list).collect::<Vec<_>>()
    }));
    let lists = [
        (Function::Read, 1),
        (Function::Read, 2),
        (Function::Analyse, 6),
        (Function::Check, 4),
        (Function::Total, 6),
        (Function::Node, 1),
        (Function::Node, 2),
        (Function::Blocks, 2),
        (Function::Write, 7),
        (Function::Deadline, 6),
        (Function::Deadline, 7),
        (Function::Bound, 8),
    ];
    for (function, place) in lists {
        for length in 0..=10 {
            let times = met.get(&(function, place, length)).copied().unwrap_or(0);
            assert!(
                times >= 100,
                "list {place} of {function:?} has {length} places only {times} times"
            );
        }
    }
}

#[test]
fn the_checker_says_yes_and_no() {
    let verdict = |case: Case| {
        let answer = case.buffers.last().expect("an answer is lent").elements::<u64>();
        answer.get(2).copied()
    };
    let met = tally(
        cases()
            .filter(|case| case.function == Function::Check && case.returned == 0)
            .filter_map(verdict),
    );
    assert!(met[&0] >= 200 && met[&1] >= 200, "{met:?}");
}
