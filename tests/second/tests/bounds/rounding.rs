//! How Z is divided (rule 18.6): down on the high side, up on the low side, and never below 0.

use crate::small::{after, HIGH, LOW};

/// The ten turns with such a Z and denominator, where a visit is left with less than nothing. The fact rules nothing out, since its coefficient
/// at the node that no walk reaches is below 0.
fn bound(side: u64, sum: i64, denominator: u64) -> u64 {
    let answer = after(|claim| {
        claim.side = side;
        claim.limits[0] = sum;
        claim.coefficients = vec![1 << 24, 0, -1];
        claim.multipliers[0] = 1;
        claim.denominator = denominator;
    });
    answer.expect("nothing is refused")
}

#[test]
fn the_high_side_is_rounded_down() {
    let high = |sum, denominator| bound(HIGH, sum, denominator) - 9;
    assert_eq!([8, 9, 10, 11, 12].map(|sum| high(sum, 3)), [2, 3, 3, 3, 4]);
    assert_eq!([0, 1, 6, 7].map(|sum| high(sum, 7)), [0, 0, 0, 1]);
    assert_eq!(high(1 << 24, 1), 1 << 24);
    assert_eq!(high(1 << 24, 1 << 23), 2);
}

#[test]
fn the_low_side_is_rounded_up() {
    let low = |below: i64, denominator| bound(LOW, -below, denominator);
    assert_eq!([8, 9, 10, 11, 12].map(|sum| low(sum, 3)), [3, 3, 4, 4, 4]);
    assert_eq!([0, 1, 6, 7, 8].map(|sum| low(sum, 7)), [0, 1, 1, 1, 2]);
    assert_eq!(low(1 << 24, 1), 1 << 24);
    assert_eq!(low(1, 1 << 32), 1);
}

#[test]
fn the_wrong_side_of_0_is_0() {
    // so no walk keeps the facts, and the first load is there all the same
    assert_eq!([-1, -2, -(1 << 24)].map(|sum| bound(HIGH, sum, 2)), [9; 3]);
    assert_eq!([1, 2, 1 << 24].map(|sum| bound(LOW, sum, 2)), [0; 3]);
}
