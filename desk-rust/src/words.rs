//! Small pieces of sentences: counts, names in a row, addresses and blocks.

use std::borrow::Borrow;

/// So many letters of a row of names are read at one look.
const ROOM: usize = 60;

/// What stands between two names.
const BETWEEN: &str = ", ";

/// A number and its noun, as `1 way` and `2 ways`.
pub fn counted(number: usize, noun: &str) -> String {
    let ending = if number == 1 { "" } else { "s" };
    format!("{number} {noun}{ending}")
}

/// Names in a row, as `a, b and c`, with `and` or another word before the last. Where they are too many, the first and how many more.
pub fn listed<T: Borrow<str>>(names: &[T], joint: &str) -> String {
    let shown = fitting(names);
    match names {
        [] => String::new(),
        [name] => name.borrow().to_string(),
        [others @ .., last] if shown == names.len() => format!("{} {joint} {}", others.join(BETWEEN), last.borrow()),
        _ => format!("{} {joint} {} more", names[..shown].join(BETWEEN), names.len() - shown),
    }
}

/// How many of the names go into a row, at least one.
fn fitting<T: Borrow<str>>(names: &[T]) -> usize {
    let letters = names.iter().scan(0, |letters, name| {
        *letters += name.borrow().chars().count() + BETWEEN.len();
        Some(*letters)
    });
    letters.take_while(|letters| *letters <= ROOM).count().max(1)
}

pub fn address(address: u64) -> String {
    format!("0x{address:08X}")
}

pub fn block(block: u32) -> String {
    format!("0x{block:X}")
}
