//! A call and what is expected of it.

use crate::buffer::Buffer;
use crate::element::flat;
use std::io::{Result, Write};

/// The functions of include/veilbuzz.h.
#[derive(Clone, Copy, Debug, PartialEq, Eq, PartialOrd, Ord)]
pub enum Function {
    Read = 1,
    Analyse = 2,
    Check = 3,
    Total = 4,
    Node = 5,
    Blocks = 6,
    Write = 7,
    Deadline = 8,
    Bound = 9,
}

impl Function {
    pub const ALL: [Function; 9] = [
        Function::Read,
        Function::Analyse,
        Function::Check,
        Function::Total,
        Function::Node,
        Function::Blocks,
        Function::Write,
        Function::Deadline,
        Function::Bound,
    ];
}

/// A call. Its numbers and its buffers are in the order of the C function's parameters; of a double there are the bits.
#[derive(Clone, Debug)]
pub struct Case {
    pub function: Function,
    pub numbers: Vec<u64>,
    pub returned: u64,
    pub buffers: Vec<Buffer>,
}

/// What is returned where a list has no room for what is told in it.
const NO_ROOM: u64 = 11;

impl Case {
    /// The same call as it has to go. Where a list has no room for what is told in it, nothing is done, and nothing lent is looked at.
    pub fn with_regard_to_room(self) -> Case {
        if !self.lists().iter().any(Buffer::is_short) {
            return self;
        }
        Case {
            returned: NO_ROOM,
            buffers: self.buffers.into_iter().map(Buffer::ignored).collect(),
            ..self
        }
    }

    /// The lists that numbers are told in: the last buffer, and of veilbuzz_read, veilbuzz_node and veilbuzz_deadline the one before it too.
    pub fn lists(&self) -> &[Buffer] {
        let both = matches!(self.function, Function::Read | Function::Node | Function::Deadline);
        let lists = if both { 2 } else { 1 };
        &self.buffers[self.buffers.len() - lists..]
    }

    /// A case as bytes: the function, the numbers, what is returned, and each buffer.
    pub fn write(&self, out: &mut impl Write) -> Result<()> {
        out.write_all(&[self.function as u8])?;
        out.write_all(&flat(&self.numbers))?;
        out.write_all(&flat(&[self.returned]))?;
        self.buffers.iter().try_for_each(|buffer| buffer.write(out))
    }
}
