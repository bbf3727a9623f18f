//! How long the lent buffers are: mostly as long as needed, and now and then everything else.

use charts::random::Random;

/// The length of a buffer of which so many elements are needed.
pub fn around(random: &mut Random, needed: usize) -> usize {
    match random.below(40) {
        0 => needed.saturating_sub(1),
        1 => random.below(needed as u64 + 1) as usize,
        2 => 0,
        3..=9 => needed + 1,
        10..=19 => needed + random.within(2, 70) as usize,
        _ => needed,
    }
}

/// The length of a buffer that has to have just so many elements: one more, one less, or few, each once in so many times.
pub fn just(random: &mut Random, needed: usize, turns: u64) -> usize {
    match random.below(turns) {
        0 => needed + 1,
        1 => needed.saturating_sub(1),
        2 => random.below(4) as usize,
        _ => needed,
    }
}

/// The length of a list of numbers, of which so many are needed.
pub fn list(random: &mut Random, needed: usize) -> usize {
    match random.below(2) {
        0 => random.within(0, 10) as usize,
        _ => needed,
    }
}
