//! Cases that are wrong on purpose, so that a run that notices nothing is noticed.

use crate::buffer::{Access, Buffer};
use crate::case::{Case, Function};
use crate::{case, SEED};

/// The wrong cases of a name, or none where there is no such name.
pub fn cases(name: &str) -> Option<Vec<Case>> {
    match name {
        "spoilt" => Some(spoilt()),
        "looked-at" => Some(vec![with_chart(Buffer::ignored)]),
        "tail-looked-at" => Some(vec![with_chart(|chart| {
            let last = chart.known[chart.known.len() - 1];
            fewer(&chart, last)
        })]),
        "unwritten" => Some(vec![unwritten()]),
        _ => None,
    }
}

/// Calls that each differ in one place from what is expected: in the number returned, or in a buffer that is written, be it the first
/// byte or the last of the used part, or the first of the tail.
fn spoilt() -> Vec<Case> {
    Function::ALL
        .into_iter()
        .flat_map(|function| {
            let right = right(function);
            let mut spoilt = vec![Case {
                returned: right.returned + 1,
                ..right.clone()
            }];
            for (place, buffer) in right.buffers.iter().enumerate() {
                if buffer.access == Access::Writes {
                    spoilt.extend(differing(buffer).map(|buffer| with_buffer(&right, place, buffer)));
                }
            }
            spoilt
        })
        .collect()
}

/// The first case of a function in which it accepts the chart, uses every buffer, and leaves a tail of the last one.
fn right(function: Function) -> Case {
    (0..)
        .map(|number| case(SEED, number))
        .filter(|case| case.function == function && case.returned == 0)
        .find(|case| {
            let last = &case.buffers[case.buffers.len() - 1];
            case.buffers.iter().all(|buffer| buffer.used > 0) && last.length > last.used
        })
        .expect("there are always more cases")
}

fn with_buffer(right: &Case, place: usize, buffer: Buffer) -> Case {
    let mut case = right.clone();
    case.buffers[place] = buffer;
    case
}

fn differing(buffer: &Buffer) -> [Buffer; 3] {
    let (mut first, mut last) = (buffer.clone(), buffer.clone());
    let end = buffer.known.len();
    first.known[0] ^= 1;
    last.known[end - 1] ^= 1;
    [first, last, fewer(buffer, buffer.known[end - buffer.size] ^ 1)]
}

/// A buffer of which one element less is said to be used. Its tail begins with such a byte.
fn fewer(buffer: &Buffer, byte: u8) -> Buffer {
    let end = buffer.known.len() - buffer.size;
    Buffer {
        used: buffer.used - 1,
        known: buffer.known[..end].to_vec(),
        fill: byte.wrapping_sub(end as u8),
        ..buffer.clone()
    }
}

/// A call that reads more of a chart than is said. What it answers is right.
fn with_chart(change: impl Fn(Buffer) -> Buffer) -> Case {
    let right = right(Function::Read);
    let chart = change(right.buffers[0].clone());
    with_buffer(&right, 0, chart)
}

/// A call that is said to write one element more than it does. The bytes of that one are expected as they stood there.
fn unwritten() -> Case {
    let right = right(Function::Read);
    let place = right.buffers.len() - 1;
    let mut list = right.buffers[place].clone();
    let end = list.known.len();
    list.used += 1;
    list.known
        .extend((end..end + list.size).map(|place| list.fill.wrapping_add(place as u8)));
    with_buffer(&right, place, list)
}
