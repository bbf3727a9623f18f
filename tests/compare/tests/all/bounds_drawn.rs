//! Bounds that are drawn: many claims on few charts, the best there are, and floors and ceilings as facts of the largest chart.

use crate::turning::{on, tightest, COSTS};
use charts::as_facts::{as_facts, with_costs};
use charts::best::{best, Best};
use charts::random_charts::of_nodes;
use charts::random_claims::facts;
use charts::random_facts::Size;
use charts::{Chart, Record};
use compare::ask;
use compare::bound_laws::{self, AS_TOTALS};
use compare::bounded::{BOUND, LIKE};
use compare::bounds::Question;
use compare::bounds_asked;
use compare::claims;
use compare::group::Group;
use compare::guarded::{long, Guarded};
use compare::raw_bound;
use compare::unfit::{BREAKS, LENGTHS, RANGES};
use second::limits::{BLOCKS, NODES};
use veilbuzz::raw::BOUND_LENGTH;

#[test]
fn many_claims_on_small_charts() {
    let mut group = Group::of("claims that are drawn");
    for _ in 0..1_000 {
        let nodes = group.random.within(1, 9);
        let chart = of_nodes(&mut group.random, nodes).bytes();
        on(&mut group, &chart, &tightest(&chart), COSTS, |random, tally, basis| {
            for _ in 0..200 {
                let grounds = basis.grounds.as_ref().map_err(|refusal| refusal.to_string())?;
                let claim = claims::drawn(random, tally, grounds);
                _ = bounds_asked::ask(random, tally, basis, &claim)?;
            }
            Ok(())
        });
    }
    let tally = group.end();
    tally.expect_each(BOUND, 0..=0, 50_000);
    for word in LENGTHS.into_iter().chain(RANGES).chain(BREAKS) {
        tally.expect(word, 50);
    }
    for like in LIKE {
        tally.expect(like, 50);
    }
}

/// With each number of the best certificates one less and one more, too.
#[test]
fn the_best_certificates_and_those_next_to_them() {
    let mut group = Group::of("the best certificates");
    for _ in 0..400 {
        let nodes = group.random.within(1, 6);
        let chart = of_nodes(&mut group.random, nodes).bytes();
        on(&mut group, &chart, &tightest(&chart), COSTS, |random, tally, basis| {
            let grounds = basis.grounds.as_ref().map_err(|refusal| refusal.to_string())?;
            let visits: Vec<u64> = grounds.nodes.iter().map(|_| random.below(5)).collect();
            let side = random.below(2);
            let few = facts(random, side, &visits, Size::Small);
            if few.limits.len() > 6 {
                return Ok(());
            }
            let Best::Claim(best) = best(grounds, &few) else {
                return Ok(());
            };
            let sound = bounds_asked::ask(random, tally, basis, &best)?;
            for place in 0..visits.len() + best.multipliers.len() {
                for one in [-1, 1] {
                    let mut claim = best.clone();
                    match place.checked_sub(visits.len()) {
                        None => claim.potentials[place] += one,
                        Some(fact) => claim.multipliers[fact] += one,
                    }
                    let other = bounds_asked::ask(random, tally, basis, &claim)?;
                    if let (Some(sound), Some(other)) = (sound, other) {
                        let better = if side == 0 { other < sound } else { other > sound };
                        assert!(!better, "{other} is better than the best, {sound}: {claim:?}");
                    }
                }
            }
            Ok(())
        });
    }
    let tally = group.end();
    tally.expect_each(BOUND, 0..=0, 300);
    tally.expect_each(BOUND, 25..=25, 300);
}

#[test]
fn floors_and_ceilings_of_the_largest_chart_as_facts() {
    let mut group = Group::of("floors and ceilings as facts");
    let blocks = BLOCKS as u64;
    let read = |node: u64| Record::read(node % (blocks - 1) * 16 + 15).sized(node % 2);
    for turns in [0, 1] {
        let mut chart = Chart::of((0..NODES as u64).map(read).collect()).in_a_row();
        if turns > 0 {
            chart.records[NODES - 1] = chart.records[NODES - 1].to(0);
        }
        let chart = chart.shaped(4, 8, turns).bytes();
        on(&mut group, &chart, &tightest(&chart), COSTS, |random, tally, basis| {
            let grounds = basis.grounds.as_ref().map_err(|refusal| refusal.to_string())?;
            let question = Question {
                costs: COSTS,
                ..Question::sound(random, &[1; NODES])
            };
            let bounds = question.lent(random);
            let totals = ask::total(tally, basis.chart, basis.table, COSTS, &bounds)?;
            let totals = totals.map_err(|refusal| refusal.to_string())?;
            let facts = as_facts(&question.floors, &question.ceilings);
            for side in [0, 1] {
                let claim = with_costs(&facts, grounds, side);
                let answer = Guarded::of(random, BOUND_LENGTH, long);
                let bound = raw_bound::bound(random, tally, basis, &claim, answer)?;
                bound_laws::totals(tally, &claim, bound.expect("nothing is refused"), totals)?;
            }
            Ok(())
        });
    }
    let tally = group.end();
    assert_eq!(tally.count(AS_TOTALS, 0) + tally.count(AS_TOTALS, 1), 4);
}
