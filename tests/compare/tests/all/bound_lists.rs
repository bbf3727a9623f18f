//! The four lists of a bound and its answer with every length around the right one.

use crate::buffers::choices;
use crate::turning::{on, on_turns, ten_turns, tightest, turning, COSTS};
use compare::bounded::BOUND;
use compare::bounds_asked::ask;
use compare::group::Group;
use compare::guarded::{long, Guarded};
use compare::raw_bound::{self, BOUND_ROOM};
use compare::unfit::LENGTHS;

#[test]
fn every_choice_of_lengths_for_the_four_lists() {
    let mut group = Group::of("lists of a bound");
    on_turns(&mut group, |random, tally, basis| {
        for [coefficients, limits, multipliers, potentials] in choices([6, 2, 2, 3]) {
            let mut claim = ten_turns();
            claim.coefficients.resize(coefficients, 0);
            claim.limits.resize(limits, 0);
            claim.multipliers.resize(multipliers, 0);
            claim.potentials.resize(potentials, 0);
            _ = ask(random, tally, basis, &claim)?;
            // and without a fact
            (claim.limits, claim.multipliers) = (Vec::new(), Vec::new());
            claim.coefficients.truncate(coefficients / 3);
            _ = ask(random, tally, basis, &claim)?;
        }
        Ok(())
    });
    let tally = group.end();
    tally.expect_each(BOUND, 0..=0, 1);
    tally.expect_each(BOUND, 23..=23, 1_000);
    for length in LENGTHS {
        tally.expect(length, 1);
    }
}

#[test]
fn an_answer_of_each_length() {
    const MOST: usize = 7;
    let mut group = Group::of("answers of a bound");
    let (sound, refused) = (turning(), vec![1; 7]);
    for chart in [&sound, &refused] {
        on(&mut group, chart, &tightest(&sound), COSTS, |random, tally, basis| {
            for denominator in [0, 1, 2] {
                for side in [0, 1, 2] {
                    for length in 0..=MOST {
                        let mut claim = ten_turns();
                        (claim.denominator, claim.side) = (denominator, side);
                        let answer = Guarded::of(random, length, long);
                        _ = raw_bound::bound(random, tally, basis, &claim, answer)?;
                    }
                }
            }
            Ok(())
        });
    }
    let tally = group.end();
    // of eight lengths five have room
    assert_eq!([0, 1].map(|room| tally.count(BOUND_ROOM, room)), [2 * 9 * 3, 2 * 9 * 5]);
    // the denominator 1 on both sides; side 2 or the denominator 0; the denominator 2 on the high side, where it is not enough
    assert_eq!([0, 1, 24, 25].map(|number| tally.count(BOUND, number)), [15, 45, 25, 5]);
}
