//! Floors and ceilings as facts: with one visit's cost as multipliers and no potentials the bounds are just the totals.

use crate::small::{HIGH, LOW};
use charts::as_facts::{as_facts, with_costs};
use charts::random::Random;
use charts::random_charts::whole;
use second::analysis::Analysed;
use second::cache::Costs;
use second::grounds::Grounds;
use second::lending::Lending;
use second::limits::PASSES;
use second::totals::Bounds;

/// Floors and ceilings of nodes, with no floor where there is no mark.
fn bounds(random: &mut Random, grounds: &Grounds) -> (Vec<u16>, Vec<u16>) {
    let most = [1, 3, 65_535][random.below(3) as usize];
    let ceilings: Vec<u16> = grounds.nodes.iter().map(|_| random.within(0, most) as u16).collect();
    let floor = |(ground, &ceiling): (&second::grounds::Ground, &u16)| match ground.marked {
        true => random.within(0, ceiling.into()) as u16,
        false => 0,
    };
    (grounds.nodes.iter().zip(&ceilings).map(floor).collect(), ceilings)
}

#[test]
fn floors_and_ceilings_as_facts_give_the_totals() {
    let (mut charts, mut none, mut loads) = (0, 0, 0);
    for seed in 0..2_000 {
        let mut random = Random::new(seed);
        let bytes = whole(&mut random).bytes();
        let mut table = Lending::largest();
        let Analysed::Settled { .. } = table.analyse(&bytes, PASSES) else {
            continue;
        };
        let hit = random.below(1 << 15) as u16 >> random.below(16);
        let costs = Costs {
            hit,
            miss: random.within(hit.into(), 65_535) as u16,
        };
        let grounds = table.grounds(&bytes, costs).expect("nothing is refused");
        // so many facts of so many nodes are many numbers
        if grounds.nodes.len() > 150 {
            continue;
        }
        let (floors, ceilings) = bounds(&mut random, &grounds);
        let claim = as_facts(&floors, &ceilings);
        let totals = table.totals(
            &bytes,
            costs,
            Bounds {
                floors: &floors,
                ceilings: &ceilings,
            },
        );
        let totals = totals.expect("nothing is refused");
        let both = [LOW, HIGH].map(|side| with_costs(&claim, &grounds, side).bound(&grounds));
        assert_eq!(both, [Ok(totals.low), Ok(totals.high)]);
        charts += 1;
        none += usize::from(ceilings.contains(&0));
        loads += usize::from(grounds.nodes.iter().any(|ground| !ground.kept.is_empty()));
    }
    assert!(
        charts > 1_500 && none > 500 && loads > 500,
        "{charts} charts, {none} with a ceiling of 0, {loads} with a kept touch"
    );
}
