//! Several faults at once of what a bound is asked with: which of them is named.

use crate::turning::{on, ten_turns, tightest, turning, COSTS};
use charts::Claim;
use compare::bounded::BOUND;
use compare::bounds_asked::ask;
use compare::group::Group;
use compare::table::Table;
use compare::unfit::BEHIND;
use veilbuzz::Costs;

/// All that a bound is asked with.
#[derive(Clone)]
struct Asked {
    chart: Vec<u8>,
    table: Table,
    costs: Costs,
    claim: Claim,
}

/// Puts a fault into it.
type Fault = fn(&mut Asked);

const FAULTS: [Fault; 13] = [
    |asked| asked.chart[0] = 2,
    |asked| asked.chart[15] = 3,
    |asked| asked.table.must.truncate(8),
    |asked| asked.table.marks.truncate(2),
    |asked| asked.table.must[0] = 0,
    |asked| asked.costs = Costs { hit: 11, miss: 10 },
    |asked| asked.claim.coefficients.push(0),
    |asked| asked.claim.multipliers.truncate(1),
    |asked| asked.claim.potentials[2] = i64::MAX,
    |asked| asked.claim.denominator = 0,
    |asked| asked.claim.side = 2,
    |asked| asked.claim.potentials[0] = -1,
    |asked| asked.claim.potentials[1] = 2,
];

#[test]
fn every_choice_of_faults() {
    let mut group = Group::of("faults of a bound");
    let chart = turning();
    for choice in 0..1 << FAULTS.len() {
        let mut asked = Asked {
            table: tightest(&chart),
            chart: chart.clone(),
            costs: COSTS,
            claim: ten_turns(),
        };
        for (number, fault) in FAULTS.iter().enumerate() {
            if choice >> number & 1 == 1 {
                fault(&mut asked);
            }
        }
        on(
            &mut group,
            &asked.chart,
            &asked.table,
            asked.costs,
            |random, tally, basis| {
                _ = ask(random, tally, basis, &asked.claim)?;
                Ok(())
            },
        );
    }
    let tally = group.end();
    for number in [0, 2, 9, 11, 13, 15, 23, 24, 25] {
        tally.expect_each(BOUND, number..=number, 1);
    }
    for number in [2, 9, 11, 13, 15, 23, 24] {
        tally.expect_each(BEHIND, number..=number, 1);
    }
}
