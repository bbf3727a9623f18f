use crate::answer::Answer;
use crate::check::Table;
use crate::raw;
use crate::Refusal;

/// What a hit and a miss cost.
#[derive(Clone, Copy, Debug, PartialEq, Eq)]
pub struct Costs {
    pub hit: u16,
    pub miss: u16,
}

/// How often a walk comes to each node, at least and at most: N floors and N ceilings.
#[derive(Clone, Copy, Debug)]
pub struct Bounds<'a> {
    pub floors: &'a [u16],
    pub ceilings: &'a [u16],
}

/// Two bounds: a walk that keeps within its floors and ceilings, and pays for each touch, costs no less than `low` and no more than `high`.
#[derive(Clone, Copy, Debug, PartialEq, Eq)]
pub struct Totals {
    pub low: u64,
    pub high: u64,
}

/// The two totals under a table that passes, or one of refusals 1 to 11 and 13 to 17.
pub fn total(chart: &[u8], table: Table, costs: Costs, bounds: Bounds) -> Result<Totals, Refusal> {
    // each pointer and its length are one slice's; of these nothing is written
    let answer = Answer::<{ raw::TOTAL_LENGTH }>::of(|answer, length| unsafe {
        raw::veilbuzz_total(
            chart.as_ptr(),
            chart.len(),
            table.must.as_ptr(),
            table.must.len(),
            table.may.as_ptr(),
            table.may.len(),
            table.marks.as_ptr(),
            table.marks.len(),
            costs.hit,
            costs.miss,
            bounds.floors.as_ptr(),
            bounds.floors.len(),
            bounds.ceilings.as_ptr(),
            bounds.ceilings.len(),
            answer,
            length,
        )
    })
    .accepted()?;
    Ok(Totals {
        low: answer.number(raw::TOTAL_LOW),
        high: answer.number(raw::TOTAL_HIGH),
    })
}
