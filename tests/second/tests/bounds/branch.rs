//! The loop of six nodes with a fork in it, ten turns: what the totals say, and what one fact more does.

use crate::small::{alone, analysed, grounds, read, COSTS, HIGH, LOW};
use charts::best::{best, Best};
use charts::{Chart, Claim, Record};
use second::cache::{cost, Cache};
use second::totals::{Bounds, Totals};

const NODES: usize = 6;
const FORK: usize = 1;
const LEFT: usize = 2;
const RIGHT: usize = 3;

const FLOORS: [u16; NODES] = [11, 10, 0, 0, 10, 1];
const CEILINGS: [u16; NODES] = [11, 10, 10, 10, 10, 1];

/// What one visit of each counts at a hit, and what a walk of ten turns loads at first: four blocks of 9 each.
const VISIT: [i64; NODES] = [1, 0, 1, 1, 1, 1];
const LOADS: u64 = 4 * 9;

/// Head, fork, left, right, tail and after.
fn branch() -> Chart {
    let records = vec![
        Record::read(0x00).to(1).to(5),
        Record::step().to(2).to(3),
        Record::read(0x10).to(4),
        Record::read(0x20).to(4),
        Record::read(0x30).to(0),
        Record::read(0x00),
    ];
    Chart::of(records).shaped(0, 4, 1)
}

/// The ceilings as facts, each with what one visit counts.
fn ceilings() -> Claim {
    let claim = Claim::of(HIGH, NODES, 0, 1);
    (0..NODES).fold(claim, |claim, node| {
        claim.with(&alone(NODES, node, 1), CEILINGS[node].into(), VISIT[node])
    })
}

/// The fact that left and right together come no more than ten times.
fn either(claim: Claim, multiplier: i64) -> Claim {
    claim.with(&[0, 0, 1, 1, 0, 0], 10, multiplier)
}

fn bound(claim: &Claim) -> u64 {
    claim.bound(&grounds(&branch(), COSTS)).expect("nothing is refused")
}

/// Ten turns, to the left and to the right in turn.
fn both_in_turn() -> Vec<usize> {
    let turn = |side| [0, FORK, side, 4];
    let turns = (0..10).flat_map(|number| turn([LEFT, RIGHT][number % 2]));
    turns.chain([0, 5]).collect()
}

#[test]
fn by_ceilings_alone_both_sides_pay_in_full() {
    let bounds = Bounds {
        floors: &FLOORS,
        ceilings: &CEILINGS,
    };
    let totals = analysed(&branch()).totals(&branch().bytes(), COSTS, bounds);
    assert_eq!(totals, Ok(Totals { low: 22, high: 78 }));
    assert_eq!(bound(&ceilings()), 11 + 10 + 10 + 10 + 1 + LOADS);
    assert_eq!(bound(&ceilings()), 78);
}

#[test]
fn by_the_fact_one_side_pays() {
    let mut claim = either(ceilings(), 1);
    (claim.multipliers[LEFT], claim.multipliers[RIGHT]) = (0, 0);
    assert_eq!(bound(&claim), 11 + 10 + 10 + 1 + LOADS);
    assert_eq!(bound(&claim), 68);
    // for nothing it is not to be had: with the fact left out the sides are left with a cost
    claim.multipliers[NODES] = 0;
    assert!(claim.bound(&grounds(&branch(), COSTS)).is_err());
}

/// One fact is enough, of the head: a turn is a visit of it, a branch and the tail, which come to 3 in a potential at the tail.
#[test]
fn by_one_ceiling_and_potentials() {
    let claim = Claim::of(HIGH, NODES, 0, 1).with(&alone(NODES, 0, 1), 11, 3);
    let claim = Claim {
        potentials: vec![-2, -2, -1, -1, 0, -1],
        ..claim
    };
    assert_eq!(bound(&claim), 33 + LOADS);
    // the visit behind the last turn counts 1, and not the 3 of a turn, only if the tail's own ceiling says so
    let both = Claim {
        multipliers: vec![2, 1],
        potentials: vec![-1, -1, 0, 0, 0, 0],
        ..claim.with(&alone(NODES, 4, 1), 10, 0)
    };
    assert_eq!(bound(&both), 22 + 10 + LOADS);
}

#[test]
fn no_certificate_is_better_and_a_walk_costs_as_much() {
    let Best::Claim(claim) = best(&grounds(&branch(), COSTS), &either(ceilings(), 0)) else {
        panic!("there is a best one");
    };
    assert_eq!(bound(&claim), 68);
    let chart = read(&branch());
    let empty = Cache::empty(chart.header.geometry);
    assert_eq!(cost(&chart, empty, COSTS, &both_in_turn()), Some(68));
}

#[test]
fn on_the_low_side_each_turn_pays_for_one_side() {
    let claim = Claim::of(LOW, NODES, 0, 1);
    let floors = (0..NODES).fold(claim, |claim, node| {
        claim.with(&alone(NODES, node, -1), -i64::from(FLOORS[node]), VISIT[node])
    });
    // head, tail and after, as the low total has it
    assert_eq!(bound(&floors), 22);
    // and a side for each time at the fork, if it is said that there is one: a walk may end at the fork
    let sided = floors.with(&[0, 1, -1, -1, 0, 0], 0, 1);
    let sided = Claim {
        multipliers: vec![1, 1, 0, 0, 1, 1, 1],
        ..sided
    };
    assert_eq!(bound(&sided), 32);
    let Best::Claim(best) = best(&grounds(&branch(), COSTS), &sided) else {
        panic!("there is a best one");
    };
    assert_eq!(bound(&best), 32);
}
