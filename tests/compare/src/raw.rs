//! The C functions without the wrapper: all numbers of each answer, and lists for them of any length.

use crate::ask::LentBounds;
use crate::expected;
use crate::guarded::{long, Guarded};
use crate::lent::Lent;
use crate::same::{same, Held};
use crate::table::LentTable;
use crate::tally::{Tally, ANSWER};
use charts::random::Random;
use veilbuzz::raw;
use veilbuzz::{Costs, Header, Refusal, Start, Unsettled};

/// How the lengths of lists are counted.
pub const ANSWER_LIST: &str = "answer list of length";
pub const HEADER_LIST: &str = "header list of length";

/// How the room in the two lists of veilbuzz_read is counted: 0 in neither, 1 in the header's alone, 2 in the answer's alone, 3 in both.
pub const READ_ROOM: &str = "room in the lists of veilbuzz_read";

/// What is returned where a list has no room for what is told in it.
const NO_ROOM: u64 = 11;

/// The numbers of a refusal: its number, its place, and zeros for what the function alone returns.
pub(crate) fn refused<const NUMBERS: usize>(refusal: Refusal) -> [u64; NUMBERS] {
    let mut numbers = [0; NUMBERS];
    numbers[raw::NUMBER] = refusal.number as u64;
    numbers[raw::PLACE] = refusal.place as u64;
    numbers
}

/// A list for so many numbers, with room for them or not.
pub(crate) fn list(random: &mut Random, numbers: usize) -> Guarded<u64> {
    let length = match random.below(12) as usize {
        11 => numbers,
        length => length,
    };
    Guarded::of(random, length, long)
}

pub(crate) fn has_room(list: &Guarded<u64>, numbers: usize) -> bool {
    list.lent().len() >= numbers
}

/// A list after numbers were told in it: it keeps what is behind them.
pub(crate) fn told(list: &Guarded<u64>, numbers: &[u64]) -> Guarded<u64> {
    let mut list = list.clone();
    list.lent_mut()[..numbers.len()].copy_from_slice(numbers);
    list
}

/// Holds a function to the numbers of its answer, or where there are none, for want of room, to 11 and a list that is left as it was.
pub(crate) fn tells<const NUMBERS: usize>(
    tally: &mut Tally,
    what: &str,
    mut answer: Guarded<u64>,
    numbers: Option<[u64; NUMBERS]>,
    call: impl FnOnce(*mut u64, usize) -> u64,
) -> Held {
    let told = numbers.map_or(answer.clone(), |numbers| told(&answer, &numbers));
    let length = answer.lent().len();
    let returned = call(answer.lent_mut().as_mut_ptr(), length);
    let number = numbers.map_or(NO_ROOM, |numbers| numbers[raw::NUMBER]);
    same(&format!("what {what} returns"), &returned, &number)?;
    answer.same(&format!("the answer of {what}"), &told)?;
    tally.add(ANSWER);
    tally.at(ANSWER_LIST, length);
    Ok(())
}

/// The six numbers of a header.
fn six(header: Header) -> [u64; raw::HEADER_LENGTH] {
    let start = match header.start {
        Start::Unknown => 0,
        Start::Empty => 1,
    };
    [header.line, header.sets, header.ways, start, header.nodes, header.entry].map(|number| number as u64)
}

pub fn read(random: &mut Random, tally: &mut Tally, chart: &[u8]) -> Held {
    let (mut header, answer) = (list(random, raw::HEADER_LENGTH), list(random, raw::READ_LENGTH));
    let room = [
        has_room(&header, raw::HEADER_LENGTH),
        has_room(&answer, raw::READ_LENGTH),
    ];
    let expected = (room == [true, true]).then(|| expected::read(chart));
    let left = match expected {
        Some(Ok(accepted)) => told(&header, &six(accepted)),
        _ => header.clone(),
    };
    let numbers = expected
        .map(|expected| expected.map_or_else(refused::<{ raw::READ_LENGTH }>, |header| [0, 0, header.blocks as u64]));
    tally.at(HEADER_LIST, header.lent().len());
    tally.at(READ_ROOM, usize::from(room[0]) + 2 * usize::from(room[1]));
    let place = header.lent_mut();
    tells(tally, "veilbuzz_read", answer, numbers, |answer, length| unsafe {
        raw::veilbuzz_read(
            chart.as_ptr(),
            chart.len(),
            place.as_mut_ptr(),
            place.len(),
            answer,
            length,
        )
    })?;
    header.same("the header", &left)
}

pub fn analyse(random: &mut Random, tally: &mut Tally, chart: &[u8], allowance: usize, lent: &Lent) -> Held {
    let (mut ours, mut second) = (lent.clone(), lent.clone());
    let answer = list(random, raw::ANALYSE_LENGTH);
    let expected = has_room(&answer, raw::ANALYSE_LENGTH).then(|| expected::analyse(chart, allowance, &mut second));
    let numbers: Option<[u64; raw::ANALYSE_LENGTH]> = expected.map(|expected| match expected {
        Ok(settled) => [0, 0, settled.passes as u64, settled.blocks as u64],
        Err(Unsettled::Spent { allowance, blocks }) => [12, 0, allowance as u64, blocks as u64],
        Err(Unsettled::Refused(refusal)) => refused(refusal),
    });
    let lent = ours.to_archive();
    tells(tally, "veilbuzz_analyse", answer, numbers, |answer, length| unsafe {
        raw::veilbuzz_analyse(
            chart.as_ptr(),
            chart.len(),
            allowance,
            lent.blocks.as_mut_ptr(),
            lent.blocks.len(),
            lent.must.as_mut_ptr(),
            lent.must.len(),
            lent.may.as_mut_ptr(),
            lent.may.len(),
            lent.marks.as_mut_ptr(),
            lent.marks.len(),
            lent.classes.as_mut_ptr(),
            lent.classes.len(),
            answer,
            length,
        )
    })?;
    ours.same(&second)
}

pub fn check(random: &mut Random, tally: &mut Tally, chart: &[u8], table: &LentTable) -> Held {
    let answer = list(random, raw::CHECK_LENGTH);
    let numbers = has_room(&answer, raw::CHECK_LENGTH).then(|| {
        let expected = expected::check(chart, table);
        expected.map_or_else(refused::<{ raw::CHECK_LENGTH }>, |yes| [0, 0, yes.into()])
    });
    let table = table.to_archive();
    tells(tally, "veilbuzz_check", answer, numbers, |answer, length| unsafe {
        raw::veilbuzz_check(
            chart.as_ptr(),
            chart.len(),
            table.must.as_ptr(),
            table.must.len(),
            table.may.as_ptr(),
            table.may.len(),
            table.marks.as_ptr(),
            table.marks.len(),
            answer,
            length,
        )
    })
}

pub fn total(
    random: &mut Random,
    tally: &mut Tally,
    chart: &[u8],
    table: &LentTable,
    costs: Costs,
    bounds: &LentBounds,
) -> Held {
    let answer = list(random, raw::TOTAL_LENGTH);
    let numbers = has_room(&answer, raw::TOTAL_LENGTH).then(|| {
        let expected = expected::total(chart, table, costs, bounds.bounds());
        expected.map_or_else(refused::<{ raw::TOTAL_LENGTH }>, |totals| {
            [0, 0, totals.low, totals.high]
        })
    });
    let (table, bounds) = (table.to_archive(), bounds.bounds());
    tells(tally, "veilbuzz_total", answer, numbers, |answer, length| unsafe {
        raw::veilbuzz_total(
            chart.as_ptr(),
            chart.len(),
            table.must.as_ptr(),
            table.must.len(),
            table.may.as_ptr(),
            table.may.len(),
            table.marks.as_ptr(),
            table.marks.len(),
            costs.hit,
            costs.miss,
            bounds.floors.as_ptr(),
            bounds.floors.len(),
            bounds.ceilings.as_ptr(),
            bounds.ceilings.len(),
            answer,
            length,
        )
    })
}
