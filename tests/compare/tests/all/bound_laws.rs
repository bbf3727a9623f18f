//! That the laws of bounds let nothing else pass.

use crate::turning::ten_turns;
use charts::Claim;
use compare::bound_laws;
use compare::tally::Tally;
use veilbuzz::Totals;

fn of_side(side: u64) -> Claim {
    Claim { side, ..ten_turns() }
}

#[test]
fn a_walk_outside_a_bound_is_refused() {
    for paid in 8..=12 {
        let holds = |side| bound_laws::walk(&mut Tally::default(), &of_side(side), 10, paid).is_ok();
        assert_eq!([holds(0), holds(1)], [paid <= 10, paid >= 10], "{paid}");
    }
}

#[test]
fn what_is_no_total_is_refused() {
    let totals = Totals { low: 2, high: 20 };
    for bound in 0..=22 {
        let holds = |side| bound_laws::totals(&mut Tally::default(), &of_side(side), bound, totals).is_ok();
        assert_eq!([holds(0), holds(1)], [bound == 20, bound == 2], "{bound}");
    }
}
