//! Bounds, asked beside a question to the totals.

use crate::bound_laws;
use crate::claims;
use crate::expected;
use crate::guarded::{long, Guarded};
use crate::raw::list;
use crate::raw_bound::{self, Basis};
use crate::raw_deadline::Asked;
use crate::same::Held;
use crate::tally::Tally;
use charts::as_facts::{as_facts, with_costs};
use charts::random::Random;
use charts::Claim;
use veilbuzz::raw::BOUND_LENGTH;

/// Up to so many nodes floors and ceilings are given as facts: those have two coefficients for each two nodes.
const SMALL: usize = 24;

/// Whether a question to the totals of so many nodes is asked for bounds too: one in three, and fewer of the larger ones, which take long.
pub fn asked_for(random: &mut Random, nodes: usize) -> bool {
    random.once_in(if nodes > 80 { 24 } else { 3 })
}

/// A list that has room, now and then none.
fn answer(random: &mut Random) -> Guarded<u64> {
    if random.once_in(8) {
        return list(random, BOUND_LENGTH);
    }
    let more = random.below(4) as usize;
    Guarded::of(random, BOUND_LENGTH + more, long)
}

/// Asks with one claim. The bound, if there is one.
pub fn ask(random: &mut Random, tally: &mut Tally, basis: &Basis, claim: &Claim) -> Held<Option<u64>> {
    let answer = answer(random);
    raw_bound::bound(random, tally, basis, claim, answer)
}

/// Asks with so many claims that are drawn, and with the question's floors and ceilings as facts. What is lent to be read stays as it was.
pub fn draw(random: &mut Random, tally: &mut Tally, asked: &Asked, nodes: usize, count: usize) -> Held {
    let before = asked.table.clone();
    let grounds = expected::grounds(asked.chart, asked.table, asked.costs);
    let basis = Basis {
        chart: asked.chart,
        table: asked.table,
        costs: asked.costs,
        grounds: &grounds,
    };
    for _ in 0..count {
        let claim = match &grounds {
            Ok(grounds) => claims::drawn(random, tally, grounds),
            Err(_) => claims::groundless(random, nodes),
        };
        _ = ask(random, tally, &basis, &claim)?;
    }
    as_totals(random, tally, &basis, asked)?;
    asked.table.same(&before)
}

/// Floors and ceilings as facts, on both sides.
fn as_totals(random: &mut Random, tally: &mut Tally, basis: &Basis, asked: &Asked) -> Held {
    let (Ok(grounds), Ok(totals)) = (basis.grounds, asked.totals) else {
        return Ok(());
    };
    let nodes = grounds.nodes.len();
    if nodes > SMALL || !random.once_in(2) {
        return Ok(());
    }
    let bounds = asked.bounds.bounds();
    let facts = as_facts(bounds.floors, bounds.ceilings);
    for side in [0, 1] {
        let claim = with_costs(&facts, grounds, side);
        if let Some(bound) = ask(random, tally, basis, &claim)? {
            bound_laws::totals(tally, &claim, bound, totals)?;
        }
    }
    Ok(())
}
