//! Totals are those of the proved function, and the shares, first loads among them, come to them, for random visits and costs of random charts.

use crate::charts_drawn::{of_any_size, of_at_most};
use crate::json::{read, Json};
use charts::random::Random;
use charts::sizes::touched_by;
use desk::known::{Known, Visits};
use desk::totals::totals;
use desk::trouble::Trouble;
use reports::each::each;
use std::collections::BTreeMap;
use std::sync::atomic::{AtomicUsize, Ordering};
use veilbuzz::{total, Analysis, Bounds, Class, Costs, Refusal, Totals};

/// A chart with random visits and costs; mostly such as there can be.
pub fn drawn(random: &mut Random, large: bool) -> Known {
    let chart = match large {
        true => of_any_size(random),
        false => of_at_most(random, 60),
    };
    let mut known = Known::of_chart("drawn", chart.bytes()).expect("the reader accepts it");
    let analysis = Analysis::of(&known.chart).expect("the reader accepts it");
    let most = [1, 10, 1_000, u16::MAX.into()][random.below(4) as usize];
    for (node, classes) in known.nodes.iter_mut().zip(&analysis.classes) {
        let (mut floor, mut ceiling) = (random.below(most + 1) as u16, random.below(most + 1) as u16);
        if floor > ceiling {
            (floor, ceiling) = (ceiling, floor);
        }
        if classes[0] == Class::Unreached {
            floor = 0;
        }
        if random.once_in(2_000) {
            (floor, ceiling) = (ceiling, floor);
        }
        node.visits = Some(Visits { floor, ceiling });
    }
    let (hit, miss) = (random.below(most + 1) as u16, random.below(most + 1) as u16);
    known.costs = Some(match random.once_in(20) {
        true => Costs { hit, miss },
        false => Costs {
            hit: hit.min(miss),
            miss: hit.max(miss),
        },
    });
    known
}

/// What the proved function says, asked directly.
fn direct(known: &Known) -> Result<Totals, Refusal> {
    let analysis = Analysis::of(&known.chart)?;
    let visits = |pick: fn(Visits) -> u16| -> Vec<u16> {
        let of_node = known.nodes.iter().map(|node| node.visits.expect("each has its visits"));
        of_node.map(pick).collect()
    };
    let (floors, ceilings) = (visits(|visits| visits.floor), visits(|visits| visits.ceiling));
    let bounds = Bounds {
        floors: &floors,
        ceilings: &ceilings,
    };
    total(
        &known.chart,
        analysis.table(),
        known.costs.expect("there are costs"),
        bounds,
    )
}

fn both(json: &Json) -> Totals {
    Totals {
        low: json.at("low").number(),
        high: json.at("high").number(),
    }
}

/// What a share is of the high total, in thousandths.
fn expect_part(share: &Json, totals: Totals) {
    let share_of = share.at("high").number() as f64 / totals.high as f64;
    match share.at("high_per_mille") {
        Json::Null => assert_eq!(totals.high, 0),
        part => assert!((part.number() as f64 - 1_000.0 * share_of).abs() <= 0.51, "{share:?}"),
    }
}

/// Holds the first loads to the classes: one for each block that has a kept touch at a node with visits (rule 10.4). How many there are.
fn expect_loads(loads: &[Json], totals: Totals, known: &Known) -> usize {
    let analysis = Analysis::of(&known.chart).expect("the reader accepts it");
    let costs = known.costs.expect("there are costs");
    let mut kept: BTreeMap<u64, Vec<usize>> = BTreeMap::new();
    for (node, classes) in analysis.classes.iter().enumerate() {
        let visited = known.nodes[node].visits.is_some_and(|visits| visits.ceiling > 0);
        let touched = touched_by(&known.chart, node).into_iter().zip(classes);
        for (block, _) in touched.filter(|(_, class)| visited && **class == Class::Kept) {
            kept.entry(block.into()).or_default().push(node);
        }
    }
    for load in loads {
        assert_eq!(load.at("high").number(), u64::from(costs.miss - costs.hit));
        expect_part(load, totals);
    }
    let nodes = |load: &Json| {
        let nodes = load.at("nodes").list();
        nodes.iter().map(|node| node.at("node").count()).collect()
    };
    let told = loads.iter().map(|load| (load.at("block").number(), nodes(load)));
    assert_eq!(told.collect::<BTreeMap<_, _>>(), kept);
    assert_eq!(loads.len(), kept.len(), "each block once");
    loads.len()
}

/// Holds an answer to the totals: shares of every node, largest first, which come to them with the first loads. How many of these there are.
fn expect(json: &Json, totals: Totals, known: &Known) -> usize {
    assert_eq!(both(json.at("totals")), totals);
    assert_eq!(both(json.at("sum_of_shares")), totals);
    let shares = json.at("shares").list();
    let loads = json.at("first_loads").list();
    let sum = |shares: &[Json], end: &str| shares.iter().map(|share| share.at(end).number()).sum::<u64>();
    let high = sum(shares, "high") + sum(loads, "high");
    assert_eq!((sum(shares, "low"), high), (totals.low, totals.high));
    let highs: Vec<u64> = shares.iter().map(|share| share.at("high").number()).collect();
    assert!(
        highs.is_sorted_by(|one, next| one >= next),
        "the largest share is the first"
    );
    let mut nodes: Vec<usize> = shares.iter().map(|share| share.at("node").count()).collect();
    nodes.sort_unstable();
    assert!(nodes.into_iter().eq(0..known.nodes.len()), "each node has a share");
    shares.iter().for_each(|share| expect_part(share, totals));
    expect_loads(loads, totals, known)
}

#[test]
fn totals_are_those_of_the_proved_function_and_shares_come_to_them() {
    let seeds: Vec<u64> = (0..100).collect();
    let counts = std::sync::Mutex::new([0; 18]);
    let loaded = AtomicUsize::new(0);
    each(&seeds, |seed| {
        let mut random = Random::new(*seed + 77);
        for place in 0..12 {
            let known = drawn(&mut random, place == 0);
            let number = match (totals(&known, None, None), direct(&known)) {
                (Ok(answer), Ok(direct)) => {
                    let loads = expect(&read(&answer.json().to_string()), direct, &known);
                    loaded.fetch_add(usize::from(loads > 0), Ordering::Relaxed);
                    0
                }
                (Err(Trouble::Refused { refusal, .. }), Err(direct)) => {
                    assert_eq!(refusal, direct);
                    refusal.number
                }
                _ => panic!("the desk and the function do not agree, seed {seed}"),
            };
            counts.lock().expect("no other thread failed")[number] += 1;
        }
    });
    let counts = counts.into_inner().expect("no thread failed");
    assert!(counts[0] >= 800 && counts[15] >= 10 && counts[16] >= 5, "{counts:?}");
    let loaded = loaded.into_inner();
    assert!(loaded >= 400, "only {loaded} have first loads");
}

#[test]
fn costs_of_the_call_go_before_those_of_the_text() {
    let mut random = Random::new(5);
    let known = drawn(&mut random, false);
    let json = |hit, miss| {
        let answer = totals(&known, hit, miss).unwrap_or_else(|trouble| panic!("{}", trouble.words()));
        read(&answer.json().to_string())
    };
    let costs = known.costs.expect("there are costs");
    let said = |json: &Json| ["hit", "miss"].map(|name| json.at("costs").at(name).number());
    assert_eq!(said(&json(None, None)), [costs.hit.into(), costs.miss.into()]);
    assert_eq!(said(&json(Some(0), None)), [0, costs.miss.into()]);
    assert_eq!(said(&json(None, Some(u16::MAX))), [costs.hit.into(), u16::MAX.into()]);
    assert_eq!(said(&json(Some(3), Some(4))), [3, 4]);
}
