//! Numbers past every width, at every place where a number stands.

use crate::hostile::{soon, HEAD};
use crate::trying::Tried;

/// Lines with a place for a number, `#`. Those of a cache are whole texts.
const PLACES: [&str; 15] = [
    "cache line # sets 8 ways 2 start unknown\nentry a\na:\n",
    "cache line 16 sets # ways 2 start unknown\nentry a\na:\n",
    "cache line 16 sets 8 ways # start unknown\nentry a\na:\n",
    "cost hit # miss 1\n",
    "cost hit 1 miss #\n",
    "at x = #\nb: read x size 1\n",
    "at x = #\nb: read x + # size 4\n",
    "b: read #\n",
    "b: write # size 4\n",
    "b: read # + # size 1\n",
    "b: read 0x10 + # size 2\n",
    "b: read 0x10 size #\n",
    "b: visits #\n",
    "b: visits 0..#\n",
    "b: visits #..#\n",
];

/// Both sides of every width that a number has somewhere, and far more digits than any.
fn numbers() -> Vec<String> {
    let widths = [8, 12, 16, 31, 32, 33, 53, 63];
    let mut numbers: Vec<String> = widths.iter().map(|width| (1_u64 << width).to_string()).collect();
    numbers.extend(widths.iter().map(|width| format!("0x{:X}", (1_u64 << width) - 1)));
    numbers.extend([u64::MAX.to_string(), (u128::from(u64::MAX) + 1).to_string()]);
    numbers.extend([format!("0x1{}", "0".repeat(16)), "9".repeat(30)]);
    numbers.extend(["1".repeat(10_000), format!("0x{}", "F".repeat(10_000))]);
    numbers
}

#[test]
fn numbers_past_every_width_are_answered_or_told() {
    let mut answered = 0;
    for place in PLACES {
        let head = if place.starts_with("cache") { "" } else { HEAD };
        for number in numbers() {
            let text = format!("{head}{}", place.replace('#', &number));
            answered += usize::from(soon(text) == Tried::Answered);
        }
    }
    assert!(
        (50..200).contains(&answered),
        "{answered} are numbers that can stand there"
    );
}
