//! What a bound is asked with and what it comes to, counted.

use crate::tally::Tally;
use crate::unfit;
use charts::random_claims::rests;
use charts::Claim;
use second::certificate::Side;
use second::facts::Fact;
use second::grounds::Grounds;
use second::ranges::{COEFFICIENTS, DENOMINATORS, LIMITS, MULTIPLIERS, POTENTIALS};
use std::cmp::Ordering;
use veilbuzz::Refusal;

/// How the answers are counted, by the number of the refusal, 0 for none.
pub const BOUND: &str = "bound, refusal";

/// How Z is divided on each side: 0 on the wrong side of 0, 1 at 0, 2 without a rest, 3 with one.
pub const DIVIDED: [&str; 2] = ["Z on the high side", "Z on the low side"];

/// Bounds by how many facts there are: 0 to 9, and 10 for more.
pub const FACTS: &str = "facts of a bound";
pub const MANY: usize = 10;

/// What a claim that is not refused may be like.
pub const LIKE: [&str; 14] = [
    "bound: a kept block that does not pay, since all its nodes are ruled out",
    "bound: a kept block that pays, though one of its nodes is ruled out",
    "bound: a kept block that a coefficient below 0 elsewhere leaves to pay",
    "bound: a kept block that a limit of 1 leaves to pay",
    "bound: kept blocks and a ruled out node, on the low side",
    "bound: the largest potential is an unmarked node's",
    "bound: at an unmarked node it would not hold",
    "bound: potentials that differ, the largest not the entry's",
    "bound: the entry's potential is just enough",
    "bound: another potential is just enough",
    "bound: limits that count",
    "bound: coefficients below 0 that count",
    "bound: a denominator that is no power of two",
    "bound: more than 32 bits hold",
];

/// Numbers at the very end of their range, not refused.
pub const EDGES: [&str; 8] = [
    "bound: the largest denominator",
    "bound: the least coefficient",
    "bound: the largest coefficient",
    "bound: the least limit",
    "bound: the largest limit",
    "bound: as many multipliers together as there may be",
    "bound: the least potential",
    "bound: the largest potential",
];

/// Counts a claim and its answer.
pub fn count(tally: &mut Tally, grounds: &Result<Grounds, Refusal>, claim: &Claim, answer: Result<u64, Refusal>) {
    tally.at(BOUND, answer.map_or_else(|refusal| refusal.number, |_| 0));
    match (grounds, answer) {
        (Ok(grounds), Ok(bound)) => accepted(tally, grounds, claim, bound),
        (grounds, Err(refusal)) => unfit::count(tally, grounds, claim, refusal),
        (Err(_), Ok(_)) => {}
    }
}

fn accepted(tally: &mut Tally, grounds: &Grounds, claim: &Claim, bound: u64) {
    let low = claim.side() == Some(Side::Low);
    let sum = claim.certificate().sum(grounds, claim.facts());
    let divided = match if low { sum.cmp(&0).reverse() } else { sum.cmp(&0) } {
        Ordering::Less => 0,
        Ordering::Equal => 1,
        Ordering::Greater => 2 + usize::from(sum % i128::from(claim.denominator) != 0),
    };
    tally.at(DIVIDED[usize::from(low)], divided);
    tally.at(FACTS, claim.limits.len().min(MANY));
    let [none_pays, pays, coefficient, limit] = ruled_out(grounds, claim);
    let [largest_unmarked, breaks, differ] = potentials(grounds, claim);
    let [entry, arrow] = just_enough(grounds, claim);
    let facts = claim.facts().each(grounds.nodes.len()).zip(&claim.multipliers);
    let counted: Vec<Fact> = facts
        .filter_map(|(fact, &multiplier)| (multiplier > 0).then_some(fact))
        .collect();
    let has = [
        !low && none_pays,
        !low && pays,
        !low && coefficient,
        !low && limit,
        low && none_pays,
        largest_unmarked,
        breaks,
        differ,
        entry,
        arrow,
        counted.iter().any(|fact| fact.limit != 0),
        counted.iter().any(|fact| fact.coefficients.iter().any(|&own| own < 0)),
        !claim.denominator.is_power_of_two(),
        bound > u32::MAX.into(),
    ];
    for (has, like) in has.into_iter().zip(LIKE).chain(edges(claim).into_iter().zip(EDGES)) {
        tally.add_if(has, like);
    }
}

/// Whether there is a kept block all of whose nodes are ruled out, one of whose nodes some are, and one whose nodes would be if coefficients below 0
/// did not count, or a limit of 1 were 0.
fn ruled_out(grounds: &Grounds, claim: &Claim) -> [bool; 4] {
    let nodes = grounds.nodes.len();
    let rules = |node: usize| claim.facts().each(nodes).any(|fact| fact.rules_out(node));
    let above = |fact: &Fact, node: usize| fact.coefficients[node] > 0;
    let without_signs = |node: usize| {
        claim
            .facts()
            .each(nodes)
            .any(|fact| fact.limit <= 0 && above(&fact, node))
    };
    let with_limit_1 = |node: usize| {
        let one = |fact: Fact| fact.limit == 1 && Fact { limit: 0, ..fact }.rules_out(node);
        claim.facts().each(nodes).any(one)
    };
    let mut has = [false; 4];
    for block in 0..grounds.blocks {
        let at: Vec<usize> = (0..nodes)
            .filter(|&node| grounds.nodes[node].kept.contains(&block))
            .collect();
        let out = at.iter().filter(|&&node| rules(node)).count();
        let pays = out < at.len();
        has[0] |= out > 0 && !pays;
        has[1] |= out > 0 && pays;
        has[2] |= pays && at.iter().all(|&node| without_signs(node));
        has[3] |= pays && at.iter().all(|&node| rules(node) || with_limit_1(node));
    }
    has
}

/// Whether the largest potential is an unmarked node's alone, whether the certificate would not hold at an unmarked node if it were marked, and
/// whether the largest of a marked node is not the entry's, and not all are the same.
fn potentials(grounds: &Grounds, claim: &Claim) -> [bool; 3] {
    let of = |marked: bool| {
        let nodes = (0..grounds.nodes.len()).filter(move |&node| grounds.nodes[node].marked == marked);
        nodes.map(|node| claim.potentials[node])
    };
    let (certificate, rests) = (claim.certificate(), rests(grounds, claim));
    let fails = |node: usize| {
        let own = certificate.potential(node);
        let short = |&target: &usize| certificate.potential(target) < own + rests[target];
        grounds.nodes[node].targets.iter().any(short)
    };
    let unmarked = (0..grounds.nodes.len()).filter(|&node| !grounds.nodes[node].marked);
    [
        of(false).max() > of(true).max(),
        unmarked.into_iter().any(fails),
        of(true).max() > Some(claim.potentials[grounds.entry]),
    ]
}

/// Whether the entry's potential is just what it has to be, and whether one at the end of a marked node's arrow is, which is not the entry's.
fn just_enough(grounds: &Grounds, claim: &Claim) -> [bool; 2] {
    let (certificate, rests) = (claim.certificate(), rests(grounds, claim));
    let just =
        |from: usize, target: usize| certificate.potential(target) == certificate.potential(from) + rests[target];
    let marked = grounds.nodes.iter().enumerate().filter(|(_, ground)| ground.marked);
    let mut arrows = marked.flat_map(|(from, ground)| ground.targets.iter().map(move |&target| (from, target)));
    [
        certificate.potential(grounds.entry) == rests[grounds.entry],
        arrows.any(|(from, target)| from != target && just(from, target)),
    ]
}

fn edges(claim: &Claim) -> [bool; EDGES.len()] {
    let sum: i128 = claim.multipliers.iter().map(|&multiplier| i128::from(multiplier)).sum();
    [
        claim.denominator == *DENOMINATORS.end(),
        claim.coefficients.contains(COEFFICIENTS.start()),
        claim.coefficients.contains(COEFFICIENTS.end()),
        claim.limits.contains(LIMITS.start()),
        claim.limits.contains(LIMITS.end()),
        sum == MULTIPLIERS,
        claim.potentials.contains(POTENTIALS.start()),
        claim.potentials.contains(POTENTIALS.end()),
    ]
}
