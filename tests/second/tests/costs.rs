//! The cost that the plain machine counts lies between the totals, at random walks, under the analysis's own table and under looser ones. Where
//! a walk's own visits are the floors and the ceilings, it lies as far from both as the touches say that are neither sure to hit nor to miss.

mod walking;

use charts::random::Random;
use second::cache::{cost, Cache, Costs};
use second::chart::Chart;
use second::lending::Lending;
use second::limits::TOUCHES;
use second::totals::{Bounds, Totals};
use std::collections::BTreeSet;
use walking::{found, looser, settled, walk};

/// Costs with a miss no cheaper than a hit, now and then the same, small or of any size.
fn costs(random: &mut Random) -> Costs {
    let most = if random.once_in(2) { 20 } else { 65_535 };
    let hit = random.within(0, most);
    let miss = if random.once_in(8) {
        hit
    } else {
        random.within(hit, most)
    };
    Costs {
        hit: hit as u16,
        miss: miss as u16,
    }
}

/// How often a walk visits each node.
fn visits(chart: &Chart, walk: &[usize]) -> Vec<u16> {
    let mut visits = vec![0; chart.nodes.len()];
    for &node in walk {
        visits[node] += 1;
    }
    visits
}

/// A floor no higher than so many visits, often as high.
fn floor(random: &mut Random, visits: u16) -> u16 {
    if random.once_in(2) {
        return visits;
    }
    random.within(0, visits.into()) as u16
}

/// A ceiling no lower than so many visits, often as low.
fn ceiling(random: &mut Random, visits: u16) -> u16 {
    match random.below(10) {
        0 => random.within(visits.into(), 65_535) as u16,
        1..=4 => visits + random.below(4) as u16,
        _ => visits,
    }
}

/// The totals under a table, which are not refused.
fn totals(bytes: &[u8], table: &Lending, costs: Costs, floors: &[u16], ceilings: &[u16]) -> Totals {
    let totals = table.totals(bytes, costs, Bounds { floors, ceilings });
    totals.expect("the table passes and the bounds hold")
}

/// What the totals have to be with a walk's own visits as floors and ceilings: what it pays for sure touches, and for the others at least hits; at
/// most misses where they are unsure, and one miss beside hits where they are kept and of one block.
fn exact(chart: &Chart, table: &Lending, mut cache: Cache, costs: Costs, walk: &[usize]) -> Totals {
    let mut totals = Totals { low: 0, high: 0 };
    let mut kept = BTreeSet::new();
    let (hit, miss) = (u64::from(costs.hit), u64::from(costs.miss));
    for &node in walk {
        for (touch, hits) in cache.visit(chart, node).into_iter().enumerate() {
            let paid = if hits == Some(true) { hit } else { miss };
            let (least, most) = match table.classes[TOUCHES * node + touch] {
                4 => (0, 0),
                1 | 2 => (paid, paid),
                3 => (hit, miss),
                _ => {
                    kept.insert(chart.nodes[node].touches[touch]);
                    (hit, hit)
                }
            };
            totals.low += least;
            totals.high += most;
        }
    }
    totals.high += kept.len() as u64 * (miss - hit);
    totals
}

/// Whether a walk makes no touch that is called unsure or kept.
fn is_sure(table: &Lending, walk: &[usize]) -> bool {
    let sure = |node: usize| {
        !table.classes[TOUCHES * node..][..TOUCHES]
            .iter()
            .any(|class| [3, 5].contains(class))
    };
    walk.iter().all(|&node| sure(node))
}

/// Whether a table calls a touch kept that the tightest calls a miss: then its high total may be below that one's.
fn keeps_a_miss(table: &Lending, tightest: &Lending) -> bool {
    tightest.classes.iter().zip(&table.classes).any(|both| both == (&2, &5))
}

/// How many tables a walk that costs anything was sure under, and how many had a high total below the tightest's.
#[derive(Default)]
struct Met {
    sure: usize,
    below: usize,
}

/// Holds what a random walk costs to the totals under tables that pass, of which the first is the tightest. Where a walk is sure and its
/// own visits are the floors and the ceilings, both totals are the cost.
fn hold(random: &mut Random, bytes: &[u8], chart: &Chart, tables: &[Lending], met: &mut Met) {
    let costs = costs(random);
    let walk = walk(random, chart);
    let cache = found(random, chart);
    let paid = cost(chart, cache.clone(), costs, &walk).expect("it is a walk");
    let visits = visits(chart, &walk);
    let floors: Vec<u16> = visits.iter().map(|&visits| floor(random, visits)).collect();
    let ceilings: Vec<u16> = visits.iter().map(|&visits| ceiling(random, visits)).collect();
    let tightest = totals(bytes, &tables[0], costs, &floors, &ceilings);
    for table in tables {
        let around = totals(bytes, table, costs, &floors, &ceilings);
        assert!(around.low <= paid && paid <= around.high, "{paid} and {around:?}");
        assert!(around.low <= tightest.low);
        assert!(tightest.high <= around.high || keeps_a_miss(table, &tables[0]));
        met.below += usize::from(around.high < tightest.high);
        let close = totals(bytes, table, costs, &visits, &visits);
        assert!(close.low <= paid && paid <= close.high, "{paid} and {close:?}");
        assert_eq!(close, exact(chart, table, cache.clone(), costs, &walk));
        if is_sure(table, &walk) {
            assert_eq!((close.low, close.high), (paid, paid));
            met.sure += usize::from(paid > 0);
        }
    }
}

#[test]
fn every_walk_costs_what_lies_between_the_totals() {
    let (mut walks, mut other, mut met) = (0, 0, Met::default());
    for seed in 0..700 {
        let mut random = Random::new(seed);
        let Some((bytes, chart, table)) = settled(&mut random) else {
            continue;
        };
        let mut tables = vec![table];
        for _ in 0..3 {
            let drawn = looser(&mut random, &bytes, &chart, &tables[0]);
            other += usize::from(drawn.classes != tables[0].classes);
            tables.push(drawn);
        }
        for _ in 0..4 {
            hold(&mut random, &bytes, &chart, &tables, &mut met);
            walks += tables.len();
        }
    }
    let Met { sure, below } = met;
    assert!(walks > 10_000, "only {walks} walks were held to totals");
    assert!(sure > 300, "only {sure} walks were sure");
    assert!(other > 1_000, "only {other} tables had other classes");
    assert!(below > 100, "only {below} tables had a high total below the tightest's");
}
