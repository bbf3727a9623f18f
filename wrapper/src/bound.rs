use crate::answer::Answer;
use crate::check::Table;
use crate::raw;
use crate::total::Costs;
use crate::Refusal;

/// What a caller knows of the walks that count (rule 18.1): of F facts the F limits, and N coefficients for each, fact after fact. A walk
/// keeps a fact if its visits of the nodes, each times the node's coefficient there, come to no more than the limit.
#[derive(Clone, Copy, Debug)]
pub struct Facts<'a> {
    pub coefficients: &'a [i64],
    pub limits: &'a [i64],
}

/// What shows that a bound follows from the facts, whoever made it (rule 18.2): a multiplier for each fact, none of them below 0, a potential
/// for each node, and what all of these were multiplied by to make them whole.
#[derive(Clone, Copy, Debug)]
pub struct Certificate<'a> {
    pub multipliers: &'a [i64],
    pub potentials: &'a [i64],
    pub denominator: u64,
}

/// Which bound a certificate is for: on what a walk costs at most, or at least.
#[derive(Clone, Copy, Debug, PartialEq, Eq)]
pub enum Side {
    High,
    Low,
}

impl Side {
    fn told(self) -> u64 {
        match self {
            Side::High => raw::SIDE_HIGH,
            Side::Low => raw::SIDE_LOW,
        }
    }
}

/// The bound that a certificate shows under a table that passes (rule 18.6): a walk that keeps all facts, and pays for each touch, costs no
/// more than the high one and no less than the low one. Or one of refusals 1 to 11, 13, 15 and 23 to 25.
pub fn bound(
    chart: &[u8],
    table: Table,
    costs: Costs,
    side: Side,
    facts: Facts,
    certificate: Certificate,
) -> Result<u64, Refusal> {
    // each pointer and its length are one slice's; of these nothing is written
    let answer = Answer::<{ raw::BOUND_LENGTH }>::of(|answer, length| unsafe {
        raw::veilbuzz_bound(
            chart.as_ptr(),
            chart.len(),
            table.must.as_ptr(),
            table.must.len(),
            table.may.as_ptr(),
            table.may.len(),
            table.marks.as_ptr(),
            table.marks.len(),
            costs.hit,
            costs.miss,
            side.told(),
            facts.coefficients.as_ptr(),
            facts.coefficients.len(),
            facts.limits.as_ptr(),
            facts.limits.len(),
            certificate.multipliers.as_ptr(),
            certificate.multipliers.len(),
            certificate.potentials.as_ptr(),
            certificate.potentials.len(),
            certificate.denominator,
            answer,
            length,
        )
    })
    .accepted()?;
    Ok(answer.number(raw::BOUND_BOUND))
}
