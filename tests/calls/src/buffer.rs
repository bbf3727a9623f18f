//! A buffer that is lent to a function.

use crate::element::{filled, flat, Element};
use charts::random::Random;
use std::io::{Result, Write};

/// What a function may do with the buffer.
#[derive(Clone, Copy, Debug, PartialEq, Eq)]
pub enum Access {
    /// It reads the used part. It may not even look at the tail.
    Reads = 0,
    /// It writes the used part. What stood there and in the tail may not matter.
    Writes = 1,
    /// It may not even look at it.
    Ignores = 2,
}

/// A buffer, by its known beginning and its tail, which is filled before the call and has to be so after it.
#[derive(Clone, Debug)]
pub struct Buffer {
    pub(crate) access: Access,
    pub(crate) size: usize,
    pub length: usize,
    /// How many elements are asked for.
    pub needed: usize,
    pub(crate) used: usize,
    pub(crate) fill: u8,
    pub(crate) known: Vec<u8>,
}

impl Buffer {
    fn of<T: Element>(access: Access, elements: &[T], needed: usize, used: usize, fill: u8) -> Buffer {
        let (bytes, tail) = (flat(elements), used * T::SIZE);
        let untouched = flat(&filled::<T>(elements.len(), fill));
        assert_eq!(bytes[tail..], untouched[tail..], "the second program kept the tail");
        Buffer {
            access,
            size: T::SIZE,
            length: elements.len(),
            needed,
            used,
            fill,
            known: bytes[..tail].to_vec(),
        }
    }

    /// A buffer of just these elements to be read.
    pub fn whole<T: Element>(elements: &[T]) -> Buffer {
        Buffer::of(Access::Reads, elements, elements.len(), elements.len(), 0)
    }

    /// A buffer to be read, so long; of the elements the first `needed` matter.
    pub fn reads<T: Element>(random: &mut Random, elements: &[T], needed: usize, length: usize) -> Buffer {
        let fill = random.below(256) as u8;
        let used = needed.min(length).min(elements.len());
        let mut lent = filled::<T>(length, fill);
        lent[..used].copy_from_slice(&elements[..used]);
        Buffer::of(Access::Reads, &lent, needed, used, fill)
    }

    /// A buffer that was filled so before the call, and has these elements after it; the first `used` were written.
    pub fn written<T: Element>(elements: &[T], needed: usize, used: usize, fill: u8) -> Buffer {
        Buffer::of(Access::Writes, elements, needed, used, fill)
    }

    /// The buffer as it is lent, where a function is to do nothing with it.
    pub fn ignored(self) -> Buffer {
        let written = self.access == Access::Writes;
        let (used, known) = if written { (0, vec![]) } else { (self.used, self.known) };
        Buffer {
            access: Access::Ignores,
            used,
            known,
            ..self
        }
    }

    pub fn is_short(&self) -> bool {
        self.length < self.needed
    }

    /// The elements as they are lent to be read, or are to be left.
    pub fn elements<T: Element>(&self) -> Vec<T> {
        let mut bytes = flat(&filled::<u8>(self.length * self.size, self.fill));
        bytes[..self.known.len()].copy_from_slice(&self.known);
        bytes.chunks_exact(T::SIZE).map(T::of).collect()
    }

    /// Writes the buffer as bytes: how it is used, how it is filled, how long it is, and what is known of it.
    pub fn write(&self, out: &mut impl Write) -> Result<()> {
        out.write_all(&[self.access as u8, self.size as u8, self.fill])?;
        out.write_all(&flat(&[self.length as u64, self.used as u64]))?;
        out.write_all(&self.known)
    }
}
