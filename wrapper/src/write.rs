use crate::answer::Answer;
use crate::raw;
use crate::{Header, Refusal};

/// What a chart's header is to say. These numbers and those of [`NodeLists`] are wider than their fields: one that is too large for its
/// field is refused, and not cut.
#[derive(Clone, Copy, Debug, PartialEq, Eq)]
pub struct Heading {
    /// L: a line has 2^L bytes.
    pub line: u64,
    /// S: the cache has 2^S sets.
    pub sets: u64,
    /// A: a set has A ways.
    pub ways: u64,
    /// 0 is unknown, 1 is empty.
    pub start: u64,
    /// N.
    pub nodes: u64,
    /// The node that every walk begins at.
    pub entry: u64,
}

/// What was read, to be written again.
impl From<Header> for Heading {
    fn from(header: Header) -> Heading {
        Heading {
            line: header.line as u64,
            sets: header.sets as u64,
            ways: header.ways as u64,
            start: header.start as u64,
            nodes: header.nodes as u64,
            entry: header.entry as u64,
        }
    }
}

/// The fields of all nodes, as [`Fields`](crate::Fields) has them of one: N numbers in each list, node 0's first.
#[derive(Clone, Copy, Debug)]
pub struct NodeLists<'a> {
    pub kinds: &'a [u64],
    pub addresses: &'a [u64],
    pub sizes: &'a [u64],
    pub outs: &'a [u64],
    pub firsts: &'a [u64],
    pub seconds: &'a [u64],
}

/// Writes a chart over the start of a buffer and returns its length, 8 + 8 N bytes, or one of refusals 3 to 6 and 8 to 11. A longer buffer
/// keeps its tail, and [`LONGEST`](crate::LONGEST) bytes are enough for every chart; after a refusal the buffer is as it was.
pub fn write(heading: Heading, nodes: &NodeLists, chart: &mut [u8]) -> Result<usize, Refusal> {
    // each pointer and its length are one slice's, and a slice that can be written overlaps no other
    let answer = Answer::<{ raw::WRITE_LENGTH }>::of(|answer, length| unsafe {
        raw::veilbuzz_write(
            heading.line,
            heading.sets,
            heading.ways,
            heading.start,
            heading.nodes,
            heading.entry,
            nodes.kinds.as_ptr(),
            nodes.kinds.len(),
            nodes.addresses.as_ptr(),
            nodes.addresses.len(),
            nodes.sizes.as_ptr(),
            nodes.sizes.len(),
            nodes.outs.as_ptr(),
            nodes.outs.len(),
            nodes.firsts.as_ptr(),
            nodes.firsts.len(),
            nodes.seconds.as_ptr(),
            nodes.seconds.len(),
            chart.as_mut_ptr(),
            chart.len(),
            answer,
            length,
        )
    })
    .accepted()?;
    Ok(answer.count(raw::WRITE_BYTES))
}
