//! Claims for what is lent: most hold or nearly do, and the others are unfit in every way there is.

use crate::claim_damage::{lengths, near, wide};
use crate::tally::Tally;
use charts::best::{best, Best};
use charts::random::Random;
use charts::random_claims::{certified, facts};
use charts::random_facts::Size;
use charts::Claim;
use second::grounds::Grounds;

/// How certificates are counted before any change: 0 the best there is, 1 longest walks, 2 those with one fact more.
pub const CERTIFICATE: &str = "a certificate as it was drawn";

/// Up to so many nodes and facts the best certificate is soon found.
const FEW: usize = 6;

/// A claim on such grounds.
pub fn drawn(random: &mut Random, tally: &mut Tally, grounds: &Grounds) -> Claim {
    let visits = any_visits(random, grounds.nodes.len());
    let side = random.below(2);
    let size = if random.once_in(8) { Size::Small } else { Size::Any };
    let mut claim = facts(random, side, &visits, size);
    // limits need not be such as any visits keep
    for limit in &mut claim.limits {
        if random.once_in(8) {
            *limit -= (random.below(1 << 20) >> random.below(20)) as i64;
        }
    }
    let claim = held(random, tally, grounds, claim, &visits);
    damaged(random, grounds, claim)
}

/// Facts with a certificate that holds: the best there is, now and then, or another.
pub fn held(random: &mut Random, tally: &mut Tally, grounds: &Grounds, claim: Claim, visits: &[u64]) -> Claim {
    let few = visits.len() <= FEW && claim.limits.len() <= FEW;
    let small = claim
        .coefficients
        .iter()
        .chain(&claim.limits)
        .all(|own| own.abs() < 100);
    if few && small && random.once_in(12) {
        if let Best::Claim(best) = best(grounds, &claim) {
            tally.at(CERTIFICATE, 0);
            return best;
        }
    }
    let facts = claim.limits.len();
    let certified = certified(random, grounds, claim, visits);
    tally.at(CERTIFICATE, 1 + certified.limits.len() - facts);
    certified
}

fn any_visits(random: &mut Random, nodes: usize) -> Vec<u64> {
    let most = [0, 1, 12, 2_000][random.below(4) as usize];
    (0..nodes).map(|_| random.within(0, most)).collect()
}

/// Mostly one change, by little or past a range or of a length; now and then several, or none.
fn damaged(random: &mut Random, grounds: &Grounds, mut claim: Claim) -> Claim {
    let changes = match random.below(8) {
        0..=2 => 0,
        3..=6 => 1,
        _ => random.within(2, 3),
    };
    for _ in 0..changes {
        match random.below(10) {
            0..=4 => near(random, grounds, &mut claim),
            5..=7 => wide(random, grounds, &mut claim),
            8 => lengths(random, &mut claim),
            _ => claim.side = no_side(random),
        }
    }
    claim
}

/// One where nothing is there to go by: as it may be for so many nodes, or unfit.
pub fn groundless(random: &mut Random, nodes: usize) -> Claim {
    let visits = any_visits(random, nodes.max(1));
    let side = random.below(2);
    let mut claim = facts(random, side, &visits, Size::Any);
    for multiplier in &mut claim.multipliers {
        *multiplier = random.below(1 << 30) as i64;
    }
    if random.once_in(3) {
        lengths(random, &mut claim);
    }
    if random.once_in(3) {
        claim.denominator = 0;
    }
    claim
}

/// A number of no side, also such as would be one if only 8 or 32 bits counted.
fn no_side(random: &mut Random) -> u64 {
    const NONE_SUCH: [u64; 8] = [2, 3, 256, 257, 1 << 32, (1 << 32) + 1, 1 << 63, u64::MAX];
    NONE_SUCH[random.below(NONE_SUCH.len() as u64) as usize]
}
