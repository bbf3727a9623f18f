//! The best certificate beside others: none that is drawn gives a better bound.

use crate::small::{grounds, COSTS, HIGH};
use charts::best::{best, Best};
use charts::random::Random;
use charts::random_charts::of_nodes;
use charts::random_claims::{certified, facts};
use charts::random_facts::Size;
use charts::{Chart, Claim, Record};
use second::refusal::Refusal;

#[test]
fn no_certificate_that_is_drawn_is_better() {
    let (mut high, mut low, mut same, mut out) = (0, 0, 0, 0);
    for seed in 0..3_000 {
        let mut random = Random::new(seed);
        let nodes = random.within(1, 6);
        let chart = of_nodes(&mut random, nodes);
        let grounds = grounds(&chart, COSTS);
        let visits: Vec<u64> = grounds.nodes.iter().map(|_| random.below(4)).collect();
        let few = facts(&mut random, seed % 2, &visits, Size::Small);
        if few.limits.len() > 6 {
            continue;
        }
        let claim = certified(&mut random, &grounds, few, &visits);
        let bound = match claim.bound(&grounds) {
            Ok(bound) => bound,
            Err(refusal) => {
                assert_eq!(refusal, Refusal::of(24), "{claim:?}");
                out += 1;
                continue;
            }
        };
        match best(&grounds, &claim) {
            Best::Claim(best) => {
                let least = best.bound(&grounds).expect("the best certificate holds");
                let better = if claim.side == HIGH {
                    bound < least
                } else {
                    bound > least
                };
                assert!(!better, "{bound}, and {least} at best: {claim:?} and {best:?}");
                same += usize::from(bound == least);
                high += usize::from(claim.side == HIGH);
                low += usize::from(claim.side != HIGH);
            }
            Best::NoWalk => {}
            Best::None => panic!("a certificate holds: {claim:?}"),
        }
    }
    assert!(
        high > 500 && low > 500 && same > 500 && out < 300,
        "{high} high and {low} low ones, {same} the best, {out} out of range"
    );
}

#[test]
fn there_is_none_where_a_loop_has_no_end_or_no_walk_keeps_the_facts() {
    let chart = Chart::of(vec![Record::read(0).to(0)]);
    let grounds = grounds(&chart, COSTS);
    let none = Claim::of(HIGH, 1, 0, 1);
    assert_eq!(best(&grounds, &none), Best::None);
    let never = none.clone().with(&[1], 0, 0);
    assert_eq!(best(&grounds, &never), Best::NoWalk);
    let five = none.with(&[2], 11, 0);
    let Best::Claim(claim) = best(&grounds, &five) else {
        panic!("there is one");
    };
    // five and a half visits at the most, which is rounded down
    assert_eq!((claim.denominator, &claim.multipliers[..]), (2, &[1][..]));
    assert_eq!(claim.bound(&grounds), Ok(5 + 9));
}
