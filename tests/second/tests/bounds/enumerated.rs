//! The bounds of the best certificates beside what all walks cost that keep the facts, on small charts.

use crate::small::{grounds, read, HIGH, LOW};
use crate::walks::{all_walks, found, Costing};
use charts::as_facts::{as_facts, with_costs};
use charts::best::{best, Best};
use charts::random::Random;
use charts::random_charts::of_nodes;
use charts::random_facts::{with_fact, Size};
use charts::{Chart, Claim};
use second::cache::Costs;
use second::chart;
use second::grounds::Grounds;

/// How many charts are drawn with each start.
const CHARTS: usize = 2_000;

/// A chart of up to six nodes, which have few blocks.
fn chart(random: &mut Random, start: u64) -> Chart {
    let nodes = random.within(1, 6);
    let mut chart = of_nodes(random, nodes);
    chart.header.start = start;
    chart
}

/// How often a random walk of up to twelve nodes comes to each.
fn visits(random: &mut Random, chart: &chart::Chart) -> Vec<u64> {
    let mut visits = vec![0; chart.nodes.len()];
    let mut node = chart.header.entry;
    visits[node] = 1;
    for _ in 0..random.below(12) {
        let targets = chart.nodes[node].arrows.targets();
        if targets.is_empty() {
            break;
        }
        node = targets[random.below(targets.len() as u64) as usize];
        visits[node] += 1;
    }
    visits
}

/// As numbers of 16 bits, which they are.
fn shorter(ceilings: &[u64]) -> Vec<u16> {
    ceilings.iter().map(|&ceiling| ceiling as u16).collect()
}

/// Ceilings that a walk with such visits keeps, for each node, as facts, and some other facts that it keeps.
fn facts(random: &mut Random, visits: &[u64], ceilings: &[u64]) -> Claim {
    let claim = as_facts(&vec![0; ceilings.len()], &shorter(ceilings));
    (0..random.below(4)).fold(claim, |claim, _| with_fact(random, claim, visits, Size::Small))
}

/// The bound of the best certificate for one of the sides.
fn best_bound(grounds: &Grounds, claim: &Claim, side: u64) -> u64 {
    let claim = Claim { side, ..claim.clone() };
    match best(grounds, &claim) {
        Best::Claim(best) => best.bound(grounds).expect("the best certificate holds"),
        other => panic!("{other:?}, where a walk keeps the facts, which are ceilings too"),
    }
}

/// How many walks there were, and at how many charts a bound is what one of them costs: the high one, the low one, both; and at how many the high
/// bound is below the high total.
#[derive(Debug, Default, PartialEq)]
struct Met {
    walks: usize,
    high: usize,
    low: usize,
    both: usize,
    sharper: usize,
}

/// The high total of ceilings alone.
fn total(grounds: &Grounds, ceilings: &[u64]) -> u64 {
    let claim = as_facts(&vec![0; ceilings.len()], &shorter(ceilings));
    let total = with_costs(&claim, grounds, HIGH).bound(grounds);
    total.expect("each visit is paid for")
}

/// Draws charts with such a start, and holds all their walks to both bounds.
fn hold_all(start: u64) -> Met {
    let mut met = Met::default();
    for seed in 0..CHARTS as u64 {
        let mut random = Random::new(seed);
        let drawn = chart(&mut random, start);
        let chart = read(&drawn);
        let costs = Costs {
            hit: random.below(4) as u16,
            miss: random.within(4, 20) as u16,
        };
        let visits = visits(&mut random, &chart);
        let ceilings: Vec<u64> = visits.iter().map(|&visits| visits + random.below(4) / 3).collect();
        let claim = facts(&mut random, &visits, &ceilings);
        let grounds = grounds(&drawn, costs);
        let [high, low] = [HIGH, LOW].map(|side| best_bound(&grounds, &claim, side));
        let Costing { walks, best, worst } = all_walks(&chart, costs, claim.facts(), &ceilings, &found(&chart));
        assert!(walks > 0, "the walk that the facts were drawn for keeps them");
        assert!(
            low <= best && worst <= high,
            "{best} to {worst}, and {low} to {high}: {claim:?} of {drawn:?}"
        );
        met.walks += walks;
        met.high += usize::from(worst == high);
        met.low += usize::from(best == low);
        met.both += usize::from(worst == high && best == low);
        met.sharper += usize::from(high < total(&grounds, &ceilings));
    }
    met
}

/// Of the charts. On the low side a kept touch counts a hit, while the first of its block misses where all walks begin with an empty cache.
#[test]
fn every_walk_from_empty_is_within_the_best_bounds() {
    let met = Met {
        walks: 34_511,
        high: 1_825,
        low: 856,
        both: 806,
        sharper: 657,
    };
    assert_eq!(hold_all(1), met);
}

#[test]
fn every_walk_from_what_may_be_there_is_within_the_best_bounds() {
    let met = Met {
        walks: 266_923,
        high: 1_798,
        low: 1_902,
        both: 1_715,
        sharper: 571,
    };
    assert_eq!(hold_all(0), met);
}
