//! Each number of a claim at each end of its range and past it, and every small Z by every small denominator.

use crate::turning::{on, on_turns, ten_turns, tightest};
use charts::{Chart, Claim, Record};
use compare::bounded::{BOUND, DIVIDED, EDGES};
use compare::bounds_asked::ask;
use compare::group::Group;
use compare::unfit::RANGES;
use second::limits::NODES;
use second::ranges::{COEFFICIENTS, DENOMINATORS, LIMITS, MULTIPLIERS, POTENTIALS};
use std::ops::RangeInclusive;
use veilbuzz::Costs;

/// Both sides of both ends of a range, of each power of two, and the ends of 64 bits.
fn edges(range: RangeInclusive<i64>) -> Vec<i64> {
    let around = |number: i64| [number.saturating_sub(1), number, number.saturating_add(1)];
    let powers = (0..63).flat_map(|bit| [1 << bit, -(1 << bit)]);
    let ends = [*range.start(), *range.end(), i64::MIN, i64::MAX];
    let mut edges: Vec<i64> = powers.chain(ends).flat_map(around).collect();
    edges.sort_unstable();
    edges.dedup();
    edges
}

/// A list of a claim, and the range of its numbers.
type List = (fn(&mut Claim) -> &mut Vec<i64>, RangeInclusive<i64>);

const LISTS: [List; 4] = [
    (|claim| &mut claim.coefficients, COEFFICIENTS),
    (|claim| &mut claim.limits, LIMITS),
    (|claim| &mut claim.multipliers, 0..=MULTIPLIERS as i64),
    (|claim| &mut claim.potentials, POTENTIALS),
];

#[test]
fn every_number_at_every_edge() {
    let mut group = Group::of("numbers of a bound at their edges");
    on_turns(&mut group, |random, tally, basis| {
        for (list, range) in LISTS {
            for place in 0..list(&mut ten_turns()).len() {
                for number in edges(range.clone()) {
                    for side in [0, 1] {
                        let mut claim = ten_turns();
                        claim.side = side;
                        list(&mut claim)[place] = number;
                        _ = ask(random, tally, basis, &claim)?;
                        // with enough everywhere it holds more often
                        claim.multipliers.iter_mut().for_each(|own| *own = (*own).max(1 << 20));
                        _ = ask(random, tally, basis, &claim)?;
                    }
                }
            }
        }
        for number in edges(1..=*DENOMINATORS.end() as i64) {
            for (side, flipped) in [(0, 0), (1, 0), (0, 1 << 63), (1, 1 << 63)] {
                let mut claim = ten_turns();
                (claim.side, claim.denominator) = (side, number as u64 ^ flipped);
                _ = ask(random, tally, basis, &claim)?;
            }
            let mut claim = ten_turns();
            claim.side = number as u64;
            _ = ask(random, tally, basis, &claim)?;
        }
        Ok(())
    });
    let tally = group.end();
    tally.expect_each(BOUND, 0..=0, 300);
    tally.expect_each(BOUND, 24..=24, 1_000);
    for range in [0, 1, 2, 3, 4, 5, 6, 7, 10, 11, 12] {
        tally.expect(RANGES[range], 1);
    }
    // the denominator and all multipliers together have their own largest numbers elsewhere
    for edge in EDGES {
        tally.expect(edge, 1);
    }
}

/// Z by a limit that a multiplier of 1 counts, where each visit is left with less than nothing.
#[test]
fn every_small_sum_by_every_small_denominator() {
    let mut group = Group::of("divisions of a bound");
    on_turns(&mut group, |random, tally, basis| {
        for denominator in (1..=12).chain([1 << 16, *DENOMINATORS.end() - 1, *DENOMINATORS.end()]) {
            let near = [1 << 16, 1 << 20, *LIMITS.end()]
                .into_iter()
                .flat_map(|limit| [limit - 1, limit]);
            for limit in (0..=40).chain(near) {
                for (side, sign) in [(0, 1), (0, -1), (1, 1), (1, -1)] {
                    let heavy = [1 << 24, 1 << 24, -1];
                    let claim =
                        Claim::of(side, 3, 0, denominator)
                            .with(&heavy, sign * limit, 1)
                            .with(&heavy, 0, 1 << 24);
                    _ = ask(random, tally, basis, &claim)?;
                }
            }
        }
        Ok(())
    });
    let tally = group.end();
    for side in DIVIDED {
        tally.expect_each(side, 0..=3, 10);
    }
}

/// The largest costs, the largest denominator and a walk through all nodes: what a visit counts is as much as it can be.
#[test]
fn the_largest_numbers_of_the_longest_walk() {
    let mut group = Group::of("the largest bounds");
    let read = |node: u64| Record::read(node % 9 * 16 + 15).sized(1);
    let chart = Chart::of((0..NODES as u64).map(read).collect()).in_a_row().bytes();
    let costs = Costs {
        hit: 65_535,
        miss: 65_535,
    };
    on(&mut group, &chart, &tightest(&chart), costs, |random, tally, basis| {
        for denominator in [1, 2, *DENOMINATORS.end()] {
            let visit = 2 * 65_535 * denominator as i64;
            let along = |sign: i64| (1..=NODES as i64).map(move |visits| sign * visits * visit);
            for (side, sign) in [(0, 1), (1, -1)] {
                let claim = Claim {
                    potentials: along(sign).collect(),
                    ..Claim::of(side, NODES, 0, denominator)
                };
                _ = ask(random, tally, basis, &claim)?;
                // the last visit is a fact on the low side, so that all count
                let mut last = vec![0; NODES];
                last[NODES - 1] = -1;
                let claim = claim.with(&last, -1, (1 << 36).min(visit));
                _ = ask(random, tally, basis, &claim)?;
            }
        }
        Ok(())
    });
    let tally = group.end();
    tally.expect(BOUND, 6);
}
