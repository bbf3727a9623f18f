use crate::answer::Answer;
use crate::raw;
use crate::Refusal;

/// A table that a caller lends to be read, whoever made it. What is longer than used is not looked at.
#[derive(Clone, Copy, Debug)]
pub struct Table<'a> {
    /// The must ages, row after row, node by node: N * B are used.
    pub must: &'a [u8],
    /// The may ages, likewise.
    pub may: &'a [u8],
    /// The marks: N are used.
    pub marks: &'a [u8],
}

/// Whether a table passes (rule 7.7), or one of refusals 1 to 11.
pub fn check(chart: &[u8], table: Table) -> Result<bool, Refusal> {
    // each pointer and its length are one slice's; of these nothing is written
    let answer = Answer::<{ raw::CHECK_LENGTH }>::of(|answer, length| unsafe {
        raw::veilbuzz_check(
            chart.as_ptr(),
            chart.len(),
            table.must.as_ptr(),
            table.must.len(),
            table.may.as_ptr(),
            table.may.len(),
            table.marks.as_ptr(),
            table.marks.len(),
            answer,
            length,
        )
    })
    .accepted()?;
    Ok(answer.number(raw::CHECK_YES) == 1)
}
