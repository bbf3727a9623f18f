//! Facts that a walk keeps, and bounds by them, between which what it costs lies.

use crate::bound_laws;
use crate::bounds_asked::ask;
use crate::claim_damage::lower;
use crate::claims::held;
use crate::raw_bound::Basis;
use crate::same::{holds, Held};
use crate::tally::Tally;
use charts::random::Random;
use charts::random_claims::facts;
use charts::random_facts::Size;

/// Asks for both bounds of facts that a walk with such visits keeps, and holds what it paid to them. So it does where the certificate does not hold
/// and is accepted all the same.
pub fn hold(random: &mut Random, tally: &mut Tally, basis: &Basis, visits: &[u16], paid: u64) -> Held {
    let Ok(grounds) = basis.grounds else { return Ok(()) };
    let visits: Vec<u64> = visits.iter().map(|&visits| visits.into()).collect();
    for side in [0, 1] {
        let facts = facts(random, side, &visits, Size::Any);
        let mut claim = held(random, tally, grounds, facts, &visits);
        holds(claim.facts().are_kept(&visits), || {
            format!("a walk does not keep the facts of {claim:?}")
        })?;
        if random.once_in(3) {
            lower(random, grounds, &mut claim);
        }
        if let Some(bound) = ask(random, tally, basis, &claim)? {
            bound_laws::walk(tally, &claim, bound, paid)?;
        }
    }
    Ok(())
}
