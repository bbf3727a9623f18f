//! A bound without the wrapper, and now and then with it: all numbers of the answer, and lists for them of any length.

use crate::ask;
use crate::bounded;
use crate::expected;
use crate::guarded::Guarded;
use crate::lent_claim::LentClaim;
use crate::raw::{has_room, refused, tells};
use crate::same::Held;
use crate::table::LentTable;
use crate::tally::Tally;
use charts::random::Random;
use charts::Claim;
use second::grounds::Grounds;
use veilbuzz::raw::{veilbuzz_bound, BOUND_LENGTH};
use veilbuzz::{Costs, Refusal};

/// How the room in the answer list is counted: 0 for none, 1 for some.
pub const BOUND_ROOM: &str = "room in the list of veilbuzz_bound";

/// A chart, a table and costs as they are lent, and what a bound goes by there.
#[derive(Clone, Copy)]
pub struct Basis<'a> {
    pub chart: &'a [u8],
    pub table: &'a LentTable,
    pub costs: Costs,
    pub grounds: &'a Result<Grounds, Refusal>,
}

/// Asks with a claim. The bound, if there is room and nothing is refused.
pub fn bound(
    random: &mut Random,
    tally: &mut Tally,
    basis: &Basis,
    claim: &Claim,
    answer: Guarded<u64>,
) -> Held<Option<u64>> {
    let room = has_room(&answer, BOUND_LENGTH);
    tally.at(BOUND_ROOM, room.into());
    let expected = room.then(|| expected::bound(basis.grounds, claim));
    let numbers = expected.map(|expected| expected.map_or_else(refused::<BOUND_LENGTH>, |bound| [0, 0, bound]));
    let (lent, just) = (LentClaim::of(random, claim), answer.lent().len() == BOUND_LENGTH);
    let (before, table) = (lent.clone(), basis.table.to_archive());
    let (facts, certificate) = (lent.facts(), lent.certificate());
    tells(tally, "veilbuzz_bound", answer, numbers, |answer, length| unsafe {
        veilbuzz_bound(
            basis.chart.as_ptr(),
            basis.chart.len(),
            table.must.as_ptr(),
            table.must.len(),
            table.may.as_ptr(),
            table.may.len(),
            table.marks.as_ptr(),
            table.marks.len(),
            basis.costs.hit,
            basis.costs.miss,
            claim.side,
            facts.coefficients.as_ptr(),
            facts.coefficients.len(),
            facts.limits.as_ptr(),
            facts.limits.len(),
            certificate.multipliers.as_ptr(),
            certificate.multipliers.len(),
            certificate.potentials.as_ptr(),
            certificate.potentials.len(),
            certificate.denominator,
            answer,
            length,
        )
    })
    .and_then(|()| lent.same(&before))
    .map_err(|words| format!("{words}, of {:?}, {claim:?}, {table:?}", basis.costs))?;
    let Some(expected) = expected else { return Ok(None) };
    // through the wrapper where the answer has just its room: one call in a few is enough
    if just {
        ask::bound(tally, basis, claim, &lent, expected)?;
    }
    bounded::count(tally, basis.grounds, claim, expected);
    Ok(expected.ok())
}
