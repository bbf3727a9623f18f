//! What makes a claim unfit, counted where refusals 23 to 25 are given for it, and where another goes before.

use crate::tally::Tally;
use charts::random_claims::rests;
use charts::Claim;
use second::grounds::Grounds;
use second::ranges::{COEFFICIENTS, DENOMINATORS, LIMITS, MULTIPLIERS, POTENTIALS};
use veilbuzz::Refusal;

/// Unfit claims that another refusal goes before, by its number.
pub const BEHIND: &str = "an unfit claim behind refusal";

/// Lists of another length, counted where nothing else is wrong with the lengths.
pub const LENGTHS: [&str; 6] = [
    "unfit: too few coefficients",
    "unfit: too many coefficients",
    "unfit: too few multipliers",
    "unfit: too many multipliers",
    "unfit: too few potentials",
    "unfit: too many potentials",
];

/// Numbers that are out of range, counted where nothing else is.
pub const RANGES: [&str; 13] = [
    "unfit: a denominator of 0",
    "unfit: a denominator above the range",
    "unfit: a coefficient below the range",
    "unfit: a coefficient above the range",
    "unfit: a limit below the range",
    "unfit: a limit above the range",
    "unfit: a multiplier below 0",
    "unfit: a multiplier above the range",
    "unfit: multipliers above the range together",
    "unfit: a multiplier out of range, and their sum, cut to 64 bits, in it",
    "unfit: a potential below the range",
    "unfit: a potential above the range",
    "unfit: a side that there is not",
];

/// Several of these at once, by how many.
pub const SEVERAL: &str = "unfit for several reasons";

/// Where a certificate does not hold, at the node that is named.
pub const BREAKS: [&str; 6] = [
    "unfit: the entry's potential alone",
    "unfit: an arrow alone",
    "unfit: the entry's potential and an arrow",
    "unfit: an arrow to the node itself",
    "unfit: the second arrow alone",
    "unfit: by 1, at an arrow",
];

/// Counts what is unfit of a claim, and what it was refused for.
pub fn count(tally: &mut Tally, grounds: &Result<Grounds, Refusal>, claim: &Claim, refusal: Refusal) {
    let behind = |unfit: bool, tally: &mut Tally| {
        if unfit {
            tally.at(BEHIND, refusal.number);
        }
    };
    match (refusal.number, grounds) {
        (23, Ok(grounds)) => {
            alone(tally, LENGTHS, &lengths(claim, grounds.nodes.len()));
            behind(!ranges(claim).is_empty(), tally);
        }
        (24, Ok(grounds)) => {
            alone(tally, RANGES, &ranges(claim));
            behind(fails(grounds, claim), tally);
        }
        (_, Ok(grounds)) => breaks(tally, grounds, claim, refusal.place),
        (_, Err(_)) => {
            let other = lengths(claim, claim.potentials.len());
            behind(!other.is_empty() || !ranges(claim).is_empty(), tally);
        }
    }
}

fn alone<const KINDS: usize>(tally: &mut Tally, words: [&'static str; KINDS], reasons: &[usize]) {
    match reasons {
        [alone] => tally.add(words[*alone]),
        several => tally.at(SEVERAL, several.len()),
    }
}

/// Which lists have another length.
fn lengths(claim: &Claim, nodes: usize) -> Vec<usize> {
    let facts = claim.limits.len();
    let lists = [
        (claim.coefficients.len(), facts * nodes),
        (claim.multipliers.len(), facts),
        (claim.potentials.len(), nodes),
    ];
    let reason = |(list, (length, wanted)): (usize, (usize, usize))| {
        (length != wanted).then_some(2 * list + usize::from(length > wanted))
    };
    lists.into_iter().enumerate().filter_map(reason).collect()
}

/// Which numbers are out of range.
fn ranges(claim: &Claim) -> Vec<usize> {
    let below = |list: &[i64], least: i64| list.iter().any(|&number| number < least);
    let above = |list: &[i64], most: i64| list.iter().any(|&number| number > most);
    let multipliers = &claim.multipliers;
    let each = !below(multipliers, 0) && !above(multipliers, MULTIPLIERS as i64);
    let sum: i128 = multipliers.iter().map(|&multiplier| i128::from(multiplier)).sum();
    let hidden = !each && (0..=MULTIPLIERS).contains(&i128::from(sum as i64));
    let reasons = [
        claim.denominator == 0,
        claim.denominator > *DENOMINATORS.end(),
        below(&claim.coefficients, *COEFFICIENTS.start()),
        above(&claim.coefficients, *COEFFICIENTS.end()),
        below(&claim.limits, *LIMITS.start()),
        above(&claim.limits, *LIMITS.end()),
        below(multipliers, 0) && !hidden,
        above(multipliers, MULTIPLIERS as i64) && !hidden,
        each && sum > MULTIPLIERS,
        hidden,
        below(&claim.potentials, *POTENTIALS.start()),
        above(&claim.potentials, *POTENTIALS.end()),
        claim.side().is_none(),
    ];
    (0..reasons.len()).filter(|&reason| reasons[reason]).collect()
}

/// Whether a certificate of the right lengths does not hold, if there is such a side, and no multiplier is so large that products do not fit.
fn fails(grounds: &Grounds, claim: &Claim) -> bool {
    let small = |multiplier: &i64| multiplier.unsigned_abs() < 1 << 40;
    if claim.side().is_none() || !claim.multipliers.iter().all(small) {
        return false;
    }
    let (certificate, rests) = (claim.certificate(), rests(grounds, claim));
    (0..grounds.nodes.len()).any(|node| !certificate.holds_at(grounds, &rests, node))
}

/// Counts what is wrong at the node that is named.
fn breaks(tally: &mut Tally, grounds: &Grounds, claim: &Claim, node: usize) {
    let (certificate, rests) = (claim.certificate(), rests(grounds, claim));
    let begins = certificate.begins_at(grounds, &rests, node);
    let short = |&target: &usize| certificate.potential(node) + rests[target] - certificate.potential(target);
    let targets = &grounds.nodes[node].targets;
    let missing: Vec<i128> = targets.iter().map(short).filter(|&missing| missing > 0).collect();
    let arrow = !missing.is_empty();
    let has = [
        !begins && !arrow,
        begins && arrow,
        !begins && arrow,
        targets.iter().any(|target| *target == node && short(target) > 0),
        matches!(targets[..], [ref first, ref second] if short(first) <= 0 && short(second) > 0),
        begins && missing == [1],
    ];
    for (has, word) in has.into_iter().zip(BREAKS) {
        tally.add_if(has, word);
    }
}
