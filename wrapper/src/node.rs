use crate::answer::Answer;
use crate::raw;
use crate::Refusal;

/// The fields of a node's record (rule 2.1), or what is to be one.
#[derive(Clone, Copy, Debug, PartialEq, Eq)]
pub struct Fields {
    /// 0 is a bare step, 1 a read, 2 a write.
    pub kind: u64,
    /// Of the first byte; 0 at a bare step.
    pub address: u64,
    /// The size code: 0 is one byte, 1 is two, 2 is four; 0 at a bare step.
    pub size: u64,
    /// How many arrows lead out.
    pub outs: u64,
    /// The node that the first arrow leads to; 0 where there is none.
    pub first: u64,
    /// That of the second, likewise.
    pub second: u64,
}

/// Reads one node of a chart, `None` where it has no node of that number, or gives one of refusals 1 to 10. The whole chart is read for it.
pub fn node(chart: &[u8], n: usize) -> Result<Option<Fields>, Refusal> {
    let mut told = [0; raw::FIELDS_LENGTH];
    // each pointer and its length are one slice's; the two lists are of this function and the one below it
    let answer = Answer::<{ raw::NODE_LENGTH }>::of(|answer, length| unsafe {
        raw::veilbuzz_node(
            chart.as_ptr(),
            chart.len(),
            n,
            told.as_mut_ptr(),
            told.len(),
            answer,
            length,
        )
    })
    .accepted()?;
    let [kind, address, size, outs, first, second] = told;
    Ok((answer.number(raw::NODE_THERE) == 1).then_some(Fields {
        kind,
        address,
        size,
        outs,
        first,
        second,
    }))
}
