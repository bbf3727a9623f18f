use crate::same::Held;
use charts::random::Random;
use std::fmt::Debug;
use std::ops::Range;

/// A buffer to lend, between two guards that nobody is to touch. Where it begins in memory is left to chance.
#[derive(Clone)]
pub struct Guarded<T> {
    all: Vec<T>,
    lent: Range<usize>,
}

impl<T: Copy + PartialEq + Debug> Guarded<T> {
    /// A buffer of so many elements. They and the guards are all the same, or go up by steps.
    pub fn of(random: &mut Random, length: usize, element: fn(u64) -> T) -> Guarded<T> {
        let base = random.below(1 << 32);
        let step = if random.once_in(3) { 0 } else { random.below(256) };
        let before = random.within(1, 20) as usize;
        let behind = random.within(1, 20) as usize;
        let places = 0..(before + length + behind) as u64;
        Guarded {
            all: places.map(|place| element(base + place * step)).collect(),
            lent: before..before + length,
        }
    }

    /// A buffer that begins with such contents, and goes on for so many elements.
    pub fn holding(random: &mut Random, contents: &[T], tail: usize, element: fn(u64) -> T) -> Guarded<T> {
        let mut buffer = Guarded::of(random, contents.len() + tail, element);
        buffer.lent_mut()[..contents.len()].copy_from_slice(contents);
        buffer
    }

    pub fn lent(&self) -> &[T] {
        &self.all[self.lent.clone()]
    }

    pub fn lent_mut(&mut self) -> &mut [T] {
        &mut self.all[self.lent.clone()]
    }

    /// Holds a buffer, its tail and its guards to another's.
    pub fn same(&self, what: &str, second: &Guarded<T>) -> Held {
        if self.all == second.all {
            return Ok(());
        }
        let differ = |&place: &usize| self.all[place] != second.all[place];
        let place = (0..self.all.len()).find(differ).expect("they are equally long");
        let (ours, second) = (self.all[place], second.all[place]);
        let (place, length) = (place as i64 - self.lent.start as i64, self.lent.len());
        Err(format!(
            "{what}[{place}] of {length} lent: the archive's is {ours:?}, the second program's {second:?}"
        ))
    }
}

pub fn byte(number: u64) -> u8 {
    number as u8
}

/// A byte that says little of the number.
pub fn noise(number: u64) -> u8 {
    (number.wrapping_mul(0x9E37_79B9_7F4A_7C15) >> 56) as u8
}

pub fn short(number: u64) -> u16 {
    number as u16
}

pub fn word(number: u64) -> u32 {
    number as u32
}

pub fn long(number: u64) -> u64 {
    number
}

/// A number of either sign, and of any size.
pub fn signed(number: u64) -> i64 {
    number.wrapping_mul(0x9E37_79B9_7F4A_7C15) as i64
}
