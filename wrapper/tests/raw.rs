//! The C functions themselves: what each tells in all places of its answer, and lists of every length around the used one.

mod given;
mod lent;

use given::Given;
use lent::{chart, Lent, BLOCKS, NODES};
use std::ops::Range;
use veilbuzz::{raw, PASSES};

/// So long a list of different numbers, none of which is ever told.
fn list(length: usize) -> Vec<u64> {
    (9_000_000..).take(length).collect()
}

/// The list after numbers were told in it, if there is room for all of them.
fn told(length: usize, numbers: &[u64]) -> Vec<u64> {
    let mut list = list(length);
    if let Some(places) = list.get_mut(..numbers.len()) {
        places.copy_from_slice(numbers);
    }
    list
}

const LENGTHS: Range<usize> = 0..10;

/// What is returned where a list has no room for what is told in it.
const NO_ROOM: u64 = 11;

/// Holds a function to the numbers of its answer, for lists of every length: without room for all of them, to 11 and a list as it was.
fn tells<const NUMBERS: usize>(numbers: [u64; NUMBERS], call: impl Fn(*mut u64, usize) -> u64) {
    for length in LENGTHS {
        let mut answer = list(length);
        let returned = if length < NUMBERS {
            NO_ROOM
        } else {
            numbers[raw::NUMBER]
        };
        assert_eq!(call(answer.as_mut_ptr(), length), returned, "a list of {length}");
        assert_eq!(answer, told(length, &numbers), "a list of {length}");
    }
}

/// Holds a function that needs so many places in another list, and in its answer, to the numbers of that list, or to none of them, for
/// lists of every length: without room in both, to 11 and lists as they were.
fn tells_beside(needed: [usize; 2], number: u64, beside: &[u64], call: impl Fn(&mut [u64], *mut u64, usize) -> u64) {
    for (length, places) in LENGTHS.flat_map(|length| LENGTHS.map(move |places| (length, places))) {
        let (mut other, mut answer) = (list(length), list(places));
        let returned = call(&mut other, answer.as_mut_ptr(), places);
        if length < needed[0] || places < needed[1] {
            assert_eq!((returned, other, answer), (NO_ROOM, list(length), list(places)));
        } else {
            assert_eq!((returned, other), (number, told(length, beside)));
            assert_eq!(answer[raw::NUMBER], number);
        }
    }
}

fn read(chart: &[u8], header: &mut [u64], answer: *mut u64, length: usize) -> u64 {
    unsafe {
        raw::veilbuzz_read(
            chart.as_ptr(),
            chart.len(),
            header.as_mut_ptr(),
            header.len(),
            answer,
            length,
        )
    }
}

#[test]
fn read_tells_the_number_of_blocks() {
    let bytes = chart();
    tells([0, 0, 3], |answer, length| read(&bytes, &mut [0; 6], answer, length));
    tells([8, 0, 0], |answer, length| {
        read(&bytes[..39], &mut [0; 6], answer, length)
    });
}

#[test]
fn read_tells_six_numbers_of_a_header_and_does_nothing_without_room_for_them() {
    let bytes = chart();
    for (chart, number, six) in [(&bytes[..], 0, &[4, 0, 2, 0, 4, 0][..]), (&bytes[..39], 8, &[])] {
        let needed = [raw::HEADER_LENGTH, raw::READ_LENGTH];
        tells_beside(needed, number, six, |header, answer, length| {
            read(chart, header, answer, length)
        });
    }
}

fn node(chart: &[u8], n: usize, fields: &mut [u64], answer: *mut u64, length: usize) -> u64 {
    unsafe {
        raw::veilbuzz_node(
            chart.as_ptr(),
            chart.len(),
            n,
            fields.as_mut_ptr(),
            fields.len(),
            answer,
            length,
        )
    }
}

#[test]
fn node_tells_whether_it_is_there() {
    let bytes = chart();
    for (chart, n, numbers) in [
        (&bytes[..], NODES - 1, [0, 0, 1]),
        (&bytes, NODES, [0, 0, 0]),
        (&bytes[..39], 0, [8, 0, 0]),
    ] {
        tells(numbers, |answer, length| node(chart, n, &mut [0; 6], answer, length));
    }
}

#[test]
fn node_tells_six_fields_and_does_nothing_without_room_for_them() {
    let bytes = chart();
    // the second node reads 0x10 and leads to the third
    for (chart, n, number, six) in [
        (&bytes[..], 1, 0, &[1, 0x10, 0, 1, 2, 0][..]),
        (&bytes, NODES, 0, &[]),
        (&bytes[..39], 1, 8, &[]),
    ] {
        let needed = [raw::FIELDS_LENGTH, raw::NODE_LENGTH];
        tells_beside(needed, number, six, |fields, answer, length| {
            node(chart, n, fields, answer, length)
        });
    }
}

/// The blocks in a buffer of so many places, which stays as it was after a refusal and without room for the answer.
fn blocks(places: usize, answer: *mut u64, length: usize) -> u64 {
    let (chart, mut blocks) = (chart(), vec![77; places]);
    let returned = unsafe {
        raw::veilbuzz_blocks(
            chart.as_ptr(),
            chart.len(),
            blocks.as_mut_ptr(),
            blocks.len(),
            answer,
            length,
        )
    };
    assert_eq!(blocks == vec![77; places], returned != 0);
    returned
}

#[test]
fn blocks_tells_how_many_there_are() {
    tells([0, 0, 3], |answer, length| blocks(BLOCKS, answer, length));
    tells([0, 0, 3], |answer, length| blocks(BLOCKS + 1, answer, length));
    tells([11, 0, 0], |answer, length| blocks(BLOCKS - 1, answer, length));
}

/// The chart of what is given after a change, in a buffer that stays as it was after a refusal and without room for the answer.
fn write(change: fn(&mut Given), answer: *mut u64, length: usize) -> u64 {
    let mut given = Given::of(&given::chart());
    change(&mut given);
    let before = given.lent.clone();
    let returned = unsafe {
        raw::veilbuzz_write(
            given.heading.line,
            given.heading.sets,
            given.heading.ways,
            given.heading.start,
            given.heading.nodes,
            given.heading.entry,
            given.kinds.as_ptr(),
            given.kinds.len(),
            given.addresses.as_ptr(),
            given.addresses.len(),
            given.sizes.as_ptr(),
            given.sizes.len(),
            given.outs.as_ptr(),
            given.outs.len(),
            given.firsts.as_ptr(),
            given.firsts.len(),
            given.seconds.as_ptr(),
            given.seconds.len(),
            given.lent.as_mut_ptr(),
            given.lent.len(),
            answer,
            length,
        )
    };
    assert_eq!(given.lent == before, returned != 0);
    returned
}

#[test]
fn write_tells_how_long_the_chart_is() {
    tells([0, 0, 48], |answer, length| write(|_| (), answer, length));
    tells([6, 0, 0], |answer, length| {
        write(|given| given.heading.entry = 5, answer, length)
    });
    tells([9, 3, 0], |answer, length| {
        write(|given| given.addresses[3] += 1, answer, length)
    });
    tells([11, 0, 0], |answer, length| {
        write(|given| given.lent.truncate(47), answer, length)
    });
}

/// Without room for its answer the analysis leaves each buffer as it was.
fn analyse(allowance: usize, answer: *mut u64, length: usize) -> u64 {
    let (chart, mut lent) = (chart(), Lent::fresh());
    let returned = unsafe {
        raw::veilbuzz_analyse(
            chart.as_ptr(),
            chart.len(),
            allowance,
            lent.blocks.as_mut_ptr(),
            lent.blocks.len(),
            lent.must.as_mut_ptr(),
            lent.must.len(),
            lent.may.as_mut_ptr(),
            lent.may.len(),
            lent.marks.as_mut_ptr(),
            lent.marks.len(),
            lent.classes.as_mut_ptr(),
            lent.classes.len(),
            answer,
            length,
        )
    };
    assert_eq!(lent == Lent::fresh(), length < raw::ANALYSE_LENGTH);
    returned
}

#[test]
fn analyse_tells_passes_and_blocks() {
    tells([0, 0, 2, 3], |answer, length| analyse(PASSES, answer, length));
    tells([12, 0, 1, 3], |answer, length| analyse(1, answer, length));
}

fn check(lent: &Lent, answer: *mut u64, length: usize) -> u64 {
    let chart = chart();
    unsafe {
        raw::veilbuzz_check(
            chart.as_ptr(),
            chart.len(),
            lent.must.as_ptr(),
            lent.must.len(),
            lent.may.as_ptr(),
            lent.may.len(),
            lent.marks.as_ptr(),
            lent.marks.len(),
            answer,
            length,
        )
    }
}

#[test]
fn check_tells_yes() {
    let mut lent = Lent::settled();
    tells([0, 0, 1], |answer, length| check(&lent, answer, length));
    lent.marks[0] = 0;
    tells([0, 0, 0], |answer, length| check(&lent, answer, length));
    lent.marks.clear();
    tells([11, 0, 0], |answer, length| check(&lent, answer, length));
}

fn total(floors: &[u16], answer: *mut u64, length: usize) -> u64 {
    let (chart, lent, ceilings) = (chart(), Lent::settled(), [10, 20, 60_000, 9]);
    unsafe {
        raw::veilbuzz_total(
            chart.as_ptr(),
            chart.len(),
            lent.must.as_ptr(),
            lent.must.len(),
            lent.may.as_ptr(),
            lent.may.len(),
            lent.marks.as_ptr(),
            lent.marks.len(),
            3,
            1000,
            floors.as_ptr(),
            floors.len(),
            ceilings.as_ptr(),
            ceilings.len(),
            answer,
            length,
        )
    }
}

#[test]
fn total_tells_low_and_high() {
    tells([0, 0, 18, 182_084], |answer, length| {
        total(&[1, 2, 3, 0], answer, length)
    });
    tells([17, 3, 0, 0], |answer, length| total(&[1, 2, 3, 4], answer, length));
}

/// The deadline of the same totals by a sheet of which neither number is taken for the other, with figures as their bits.
fn deadline(
    floors: &[u16],
    (kind, earliest, latest): (u64, f64, f64),
    figures: &mut [u64],
    answer: *mut u64,
    length: usize,
) -> u64 {
    let (chart, lent, ceilings) = (chart(), Lent::settled(), [10, 20, 60_000, 9]);
    unsafe {
        raw::veilbuzz_deadline(
            chart.as_ptr(),
            chart.len(),
            lent.must.as_ptr(),
            lent.must.len(),
            lent.may.as_ptr(),
            lent.may.len(),
            lent.marks.as_ptr(),
            lent.marks.len(),
            3,
            1000,
            floors.as_ptr(),
            floors.len(),
            ceilings.as_ptr(),
            ceilings.len(),
            0.125,
            2.0,
            kind,
            earliest,
            latest,
            figures.as_mut_ptr().cast(),
            figures.len(),
            answer,
            length,
        )
    }
}

const LOW: f64 = 4.25;
const HIGH: f64 = 22_762.5;

/// Deadlines with whether they are met, for each kind; what is not looked at would else be refused.
const MET: [((u64, f64, f64), u64); 6] = [
    ((raw::DEADLINE_NONE, f64::NAN, -1.0), 1),
    ((raw::DEADLINE_LATEST, f64::NAN, HIGH), 1),
    ((raw::DEADLINE_LATEST, -1.0, LOW), 0),
    ((raw::DEADLINE_WINDOW, LOW, HIGH), 1),
    ((raw::DEADLINE_WINDOW, HIGH, HIGH), 0),
    ((raw::DEADLINE_WINDOW, LOW, LOW), 0),
];

/// A window the wrong way round, and kinds that there are not.
const IMPOSSIBLE: [(u64, f64, f64); 4] = [
    (raw::DEADLINE_WINDOW, HIGH, LOW),
    (3, LOW, HIGH),
    (1 << 32, LOW, HIGH),
    (u64::MAX, LOW, HIGH),
];

#[test]
fn deadline_tells_whether_it_is_met() {
    let tells = |floors: &[u16], given, numbers| {
        tells(numbers, |answer, length| {
            deadline(floors, given, &mut [0; 2], answer, length)
        });
    };
    for (given, met) in MET {
        tells(&[1, 2, 3, 0], given, [0, 0, met]);
    }
    for given in IMPOSSIBLE {
        tells(&[1, 2, 3, 0], given, [18, 0, 0]);
        tells(&[1, 2, 3, 4], given, [17, 3, 0]);
    }
}

#[test]
fn deadline_tells_two_figures_and_does_nothing_without_room_for_them() {
    let tells = |floors: &[u16], given, number, figures: [f64; 2]| {
        let needed = [raw::FIGURES_LENGTH, raw::DEADLINE_LENGTH];
        tells_beside(needed, number, &figures.map(f64::to_bits), |figures, answer, length| {
            deadline(floors, given, figures, answer, length)
        });
    };
    for (given, _) in MET {
        tells(&[1, 2, 3, 0], given, 0, [LOW, HIGH]);
        tells(&[1, 2, 3, 4], given, 17, [0.0; 2]);
    }
    for given in IMPOSSIBLE {
        tells(&[1, 2, 3, 0], given, 18, [0.0; 2]);
    }
}

/// What a bound is asked with: a side, a fact's coefficients and limit, the potentials and the denominator.
#[derive(Clone, Copy)]
struct Shown {
    side: u64,
    coefficients: &'static [i64],
    limit: i64,
    potentials: &'static [i64],
    denominator: u64,
}

/// All marked nodes are come to six times at most: with the multiplier 3 a visit is left with nothing.
const AT_MOST: Shown = Shown {
    side: raw::SIDE_HIGH,
    coefficients: &[1, 1, 1, 0],
    limit: 6,
    potentials: &[0; NODES],
    denominator: 1,
};

/// The first is come to three times at least: with the multiplier 3 a visit is left with nothing, or with less.
const AT_LEAST: Shown = Shown {
    side: raw::SIDE_LOW,
    coefficients: &[-1, 0, 0, 0],
    limit: -3,
    potentials: &[0; NODES],
    denominator: 1,
};

fn bound(shown: Shown, answer: *mut u64, length: usize) -> u64 {
    let (chart, lent, limits, multipliers) = (chart(), Lent::settled(), [shown.limit], [3]);
    unsafe {
        raw::veilbuzz_bound(
            chart.as_ptr(),
            chart.len(),
            lent.must.as_ptr(),
            lent.must.len(),
            lent.may.as_ptr(),
            lent.may.len(),
            lent.marks.as_ptr(),
            lent.marks.len(),
            3,
            1000,
            shown.side,
            shown.coefficients.as_ptr(),
            shown.coefficients.len(),
            limits.as_ptr(),
            limits.len(),
            multipliers.as_ptr(),
            multipliers.len(),
            shown.potentials.as_ptr(),
            shown.potentials.len(),
            shown.denominator,
            answer,
            length,
        )
    }
}

#[test]
fn bound_tells_the_bound_of_its_side() {
    let tells = |shown, told| tells([0, 0, told], |answer, length| bound(shown, answer, length));
    tells(AT_MOST, 3 * 6 + 2 * 997);
    tells(AT_LEAST, 3 * 3);
}

#[test]
fn bound_tells_each_refusal_and_where_a_certificate_does_not_hold() {
    let tells = |shown, number, place| tells([number, place, 0], |answer, length| bound(shown, answer, length));
    for shown in [AT_MOST, AT_LEAST] {
        let coefficients = &[1, 1, 1];
        tells(Shown { coefficients, ..shown }, 23, 0);
        for side in [2, 3, 256, 1 << 32, (1 << 32) + 1, u64::MAX] {
            tells(Shown { side, ..shown }, 24, 0);
        }
        for denominator in [0, (1 << 32) + 1] {
            tells(Shown { denominator, ..shown }, 24, 0);
        }
        // the last marked node has less than the one before it
        let potentials = &[0, 4, 0, 0];
        tells(Shown { potentials, ..shown }, 25, 1);
    }
}
