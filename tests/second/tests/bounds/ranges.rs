//! Each range's last number is accepted and the next one refused (rule 18.8), and each list at both sides of its length.

use crate::small::{after, ten_turns};
use charts::Claim;
use second::refusal::Refusal;

const OUT_OF_RANGE: Result<u64, Refusal> = Err(Refusal { number: 24, place: 0 });
const LENGTHS: Result<u64, Refusal> = Err(Refusal { number: 23, place: 0 });

/// Puts numbers in a place of the ten turns: those that are in range are not refused for it, and the others are.
fn edges<T: Copy + std::fmt::Debug>(put: impl Fn(&mut Claim, T), within: &[T], out: &[T]) {
    for &number in within {
        let answer = after(|claim| put(claim, number));
        assert!(
            !matches!(answer, Err(Refusal { number: 23 | 24, .. })),
            "{number:?}: {answer:?}"
        );
    }
    for &number in out {
        assert_eq!(after(|claim| put(claim, number)), OUT_OF_RANGE, "{number:?}");
    }
}

#[test]
fn denominators() {
    let most = 1 << 32;
    let put = |claim: &mut Claim, number| claim.denominator = number;
    edges(put, &[1, 2, most - 1, most], &[0, most + 1, 1 << 33, 1 << 63, u64::MAX]);
}

#[test]
fn coefficients_and_limits() {
    let most = 1 << 24;
    let (within, out) = (
        [-most, 1 - most, -1, 0, 1, most - 1, most],
        [-most - 1, most + 1, 1 << 32, 1 << 56, i64::MIN, i64::MIN + 1, i64::MAX],
    );
    edges(|claim, number| claim.limits[0] = number, &within, &out);
    // also those of nodes that no walk reaches
    for node in 0..3 {
        edges(|claim, number| claim.coefficients[node] = number, &within, &out);
    }
}

#[test]
fn multipliers() {
    let most = 1 << 36;
    let put = |claim: &mut Claim, number| claim.multipliers[0] = number;
    edges(put, &[0, 1, most - 1, most], &[-1, most + 1, i64::MIN, i64::MAX, -most]);
}

#[test]
fn multipliers_together() {
    let together = |multipliers: &[i64]| {
        let claim = Claim {
            coefficients: Vec::new(),
            limits: Vec::new(),
            multipliers: Vec::new(),
            ..ten_turns()
        };
        let with = |claim: Claim, &multiplier: &i64| claim.with(&[1, 0, 0], 0, multiplier);
        let claim = multipliers.iter().fold(claim, with);
        after(|own| *own = claim.clone())
    };
    let half = 1 << 35;
    assert_eq!(together(&[half, half]), Ok(0));
    assert_eq!(together(&[half, half, 0]), Ok(0));
    assert_eq!(together(&[half, half, 1]), OUT_OF_RANGE);
    assert_eq!(together(&[half, half + 1]), OUT_OF_RANGE);
    assert_eq!(together(&[half, -1, half]), OUT_OF_RANGE);
    // what wraps around in 64 bits
    assert_eq!(together(&[i64::MAX, i64::MAX, 2]), OUT_OF_RANGE);
    assert_eq!(together(&[i64::MIN, i64::MIN, 1]), OUT_OF_RANGE);
    assert_eq!(together(&[i64::MAX, i64::MIN, 2]), OUT_OF_RANGE);
}

#[test]
fn potentials() {
    let most = 1 << 60;
    let within = [-most, 1 - most, 0, most - 1, most];
    let out = [-most - 1, most + 1, i64::MIN, i64::MAX];
    for node in 0..3 {
        edges(|claim, number| claim.potentials[node] = number, &within, &out);
    }
}

#[test]
fn sides() {
    let put = |claim: &mut Claim, number| claim.side = number;
    edges(put, &[0, 1], &[2, 3, 256, 1 << 32, (1 << 32) + 1, 1 << 63, u64::MAX]);
}

#[test]
fn the_largest_numbers_do_not_overflow() {
    let most = 1 << 24;
    // Z is 2^60 and 2^60 more, and then 2^60 and 2^60 less, on both sides
    for side in [0, 1] {
        let claim = |sign: i64| Claim {
            side,
            coefficients: vec![most, 0, 0],
            limits: vec![sign * most],
            multipliers: vec![1 << 36],
            potentials: vec![sign << 60; 3],
            denominator: 1 << 32,
        };
        let answer = |sign| after(|own| *own = claim(sign));
        // 2^61 by 2^32, and the first load
        let above = if side == 0 { (1 << 29) + 9 } else { 0 };
        assert_eq!(answer(1), Ok(above));
        // the entry is left with 2^32 times 1 more than that potential, or less
        let below = [Err(Refusal::at(25, 0)), Ok(1 << 29)];
        assert_eq!(answer(-1), below[side as usize]);
    }
    // the least that can be left, where the potential is enough
    let least = after(|claim| {
        claim.side = 1;
        claim.coefficients = vec![most, 0, 0];
        claim.limits = vec![-most];
        claim.multipliers = vec![1 << 36];
        claim.potentials = vec![-(1 << 60), -(1 << 60), 0];
    });
    assert_eq!(least, Ok(1 << 61));
}

#[test]
fn lists_of_other_lengths() {
    let changes: [fn(&mut Claim); 12] = [
        |claim| _ = claim.coefficients.pop(),
        |claim| claim.coefficients.push(0),
        |claim| claim.coefficients.clear(),
        |claim| claim.coefficients.extend([0; 3]),
        |claim| claim.limits.clear(),
        |claim| claim.limits.push(0),
        |claim| claim.multipliers.clear(),
        |claim| claim.multipliers.push(0),
        |claim| _ = claim.potentials.pop(),
        |claim| claim.potentials.push(0),
        |claim| claim.potentials.clear(),
        // as many facts by the limits as by the multipliers
        |claim| (claim.limits, claim.multipliers) = (vec![10; 3], vec![1; 3]),
    ];
    for (number, change) in changes.into_iter().enumerate() {
        assert_eq!(after(change), LENGTHS, "change {number}");
    }
}

#[test]
fn no_fact_at_all_is_no_fault() {
    let none = after(|claim| {
        claim.coefficients.clear();
        claim.limits.clear();
        claim.multipliers.clear();
    });
    // but the loop has no bound then
    assert_eq!(none, Err(Refusal::at(25, 0)));
    let low = after(|claim| {
        *claim = Claim::of(1, 3, -1, 1);
    });
    assert_eq!(low, Ok(1));
}
