//! Answers as the numbers that the C functions tell.

use crate::buffer::Buffer;
use crate::element::filled;
use crate::lengths::list;
use charts::random::Random;
use second::refusal::Refusal;

/// The numbers of an answer: a refusal's number and place, both 0 for none, and then what its function alone returns.
pub struct Answer<const NUMBERS: usize>(pub [u64; NUMBERS]);

impl<const NUMBERS: usize> Answer<NUMBERS> {
    /// A refusal, with zeros behind its number and its place.
    pub fn refused(refusal: Refusal) -> Self {
        let mut numbers = [0; NUMBERS];
        (numbers[0], numbers[1]) = (refusal.number as u64, refusal.place as u64);
        Answer(numbers)
    }

    /// What the function returns.
    pub fn number(&self) -> u64 {
        self.0[0]
    }

    /// The list that an answer is told in.
    pub fn told(&self, random: &mut Random) -> Buffer {
        told(random, Some(&self.0), NUMBERS)
    }
}

/// A list for so many numbers, which takes them if it has room for all. Without room nothing is told at all, in no list of the call.
pub fn told(random: &mut Random, numbers: Option<&[u64]>, needed: usize) -> Buffer {
    let fill = random.below(256) as u8;
    let mut places = filled::<u64>(list(random, needed), fill);
    let mut used = 0;
    if let Some(numbers) = numbers.filter(|_| places.len() >= needed) {
        places[..needed].copy_from_slice(numbers);
        used = needed;
    }
    Buffer::written(&places, needed, used, fill)
}
