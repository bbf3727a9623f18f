use crate::answer::Answer;
use crate::raw;
use crate::Refusal;

/// What the cache holds before a walk. The numbers are the start codes of rule 1.2.
#[derive(Clone, Copy, Debug, PartialEq, Eq)]
pub enum Start {
    /// Anything.
    Unknown = 0,
    /// Nothing.
    Empty = 1,
}

/// What a chart's header says, and the number of blocks that its records have.
#[derive(Clone, Copy, Debug, PartialEq, Eq)]
pub struct Header {
    /// L: a line has 2^L bytes.
    pub line: usize,
    /// S: the cache has 2^S sets.
    pub sets: usize,
    /// A: a set has A ways.
    pub ways: usize,
    pub start: Start,
    /// N.
    pub nodes: usize,
    /// The node that every walk begins at.
    pub entry: usize,
    /// B: how many blocks the references touch, with their first bytes and with their last.
    pub blocks: usize,
}

/// Reads a chart: its header and its number of blocks, or one of refusals 1 to 10.
pub fn read(chart: &[u8]) -> Result<Header, Refusal> {
    let mut told = [0; raw::HEADER_LENGTH];
    // each pointer and its length are one slice's; the two lists are of this function and the one below it
    let answer = Answer::<{ raw::READ_LENGTH }>::of(|answer, length| unsafe {
        raw::veilbuzz_read(
            chart.as_ptr(),
            chart.len(),
            told.as_mut_ptr(),
            told.len(),
            answer,
            length,
        )
    })
    .accepted()?;
    let [line, sets, ways, start, nodes, entry] = told.map(|number| number as usize);
    Ok(Header {
        line,
        sets,
        ways,
        start: match start {
            0 => Start::Unknown,
            1 => Start::Empty,
            _ => unreachable!("an accepted chart has start code 0 or 1"),
        },
        nodes,
        entry,
        blocks: answer.count(raw::READ_BLOCKS),
    })
}
