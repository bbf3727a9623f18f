//! Times without a float unit, beside this machine's own floats: bits, products, sums and order; and some worked out by hand.

use charts::random::Random;
use charts::random_times::{above_zero, any, bits, no_time, zero, SMALLEST_NORMAL};
use second::rounding::nearest;
use second::time::{units, Time};
use second::whole::Whole;

const DRAWN: u64 = 200_000;

const LARGEST: u64 = (0x7FF << 52) - 1;

/// The units of a float that has some.
fn of(float: f64) -> Whole {
    units(float).expect("it is finite and not below zero")
}

fn product(factor: u64, float: f64) -> u64 {
    Time::rounded(of(float).times(factor)).bits()
}

fn sum(one: f64, other: f64) -> u64 {
    Time::rounded(of(one).plus(of(other))).bits()
}

/// A finite float that is not below zero.
fn time(random: &mut Random) -> f64 {
    if random.once_in(20) {
        return zero(random);
    }
    above_zero(random)
}

/// A whole number that a float holds, of any length.
fn factor(random: &mut Random) -> u64 {
    bits(random) >> random.within(11, 63)
}

/// Times that lie near one another in size, so that their sum is seldom just the larger one.
fn near(random: &mut Random, float: f64) -> f64 {
    let away = random.below(120) << 52;
    let near = (float.to_bits() << 1 >> 1).saturating_sub(60 << 52) + away;
    f64::from_bits((near ^ bits(random) % SMALLEST_NORMAL).min(LARGEST))
}

/// How the machine's answers are counted, so that none of the kinds is missing: zero, subnormal, normal, infinite.
#[derive(Default)]
struct Met([u64; 4]);

impl Met {
    fn count(&mut self, bits: u64) {
        let kind = match bits {
            0 => 0,
            1..SMALLEST_NORMAL => 1,
            ..=LARGEST => 2,
            _ => 3,
        };
        self.0[kind] += 1;
    }

    fn expect(self) {
        assert!(self.0.into_iter().all(|count| count > DRAWN / 2_000), "{:?}", self.0);
    }
}

#[test]
fn products_are_the_machines() {
    let (mut random, mut met) = (Random::new(1), Met::default());
    for _ in 0..DRAWN {
        let (factor, float) = (factor(&mut random), time(&mut random));
        let machine = (factor as f64 * float).to_bits() << 1 >> 1;
        assert_eq!(
            product(factor, float),
            machine,
            "{factor} times {:016x}",
            float.to_bits()
        );
        met.count(machine);
    }
    met.expect();
}

#[test]
fn sums_are_the_machines() {
    let (mut random, mut met) = (Random::new(2), Met::default());
    for _ in 0..DRAWN {
        let one = time(&mut random);
        let other = if random.once_in(3) {
            time(&mut random)
        } else {
            near(&mut random, one)
        };
        let machine = (one + other).to_bits() << 1 >> 1;
        let words = || format!("{:016x} and {:016x}", one.to_bits(), other.to_bits());
        assert_eq!(sum(one, other), machine, "{}", words());
        assert_eq!(sum(other, one), machine, "{}", words());
        met.count(machine);
    }
    met.expect();
}

#[test]
fn the_order_is_the_machines() {
    let mut random = Random::new(3);
    let mut equal = 0;
    for _ in 0..DRAWN {
        let one = time(&mut random);
        let other = match random.below(4) {
            0 => time(&mut random),
            1 => near(&mut random, one),
            2 => f64::from_bits(one.to_bits() ^ 1),
            _ => one,
        };
        let other = if units(other).is_some() { other } else { 0.0 };
        assert_eq!(
            Some(of(one).cmp(&of(other))),
            one.partial_cmp(&other),
            "{one:e} and {other:e}"
        );
        assert!(Time::Finite(of(one)) < Time::Infinite);
        equal += u64::from(one == other);
    }
    assert!(equal > DRAWN / 10, "only {equal} were equal");
}

#[test]
fn a_time_has_its_floats_bits() {
    let mut random = Random::new(4);
    for _ in 0..DRAWN {
        let float = above_zero(&mut random);
        assert_eq!(Time::Finite(of(float)).bits(), float.to_bits());
        assert_eq!(Time::rounded(of(float)).bits(), float.to_bits());
    }
    assert_eq!(Time::Infinite.bits(), f64::INFINITY.to_bits());
    assert_eq!((Time::ZERO.bits(), of(0.0), of(-0.0)), (0, Whole::ZERO, Whole::ZERO));
}

#[test]
fn what_is_not_finite_or_below_zero_is_no_time() {
    let mut random = Random::new(5);
    let mut no_times = 0;
    for _ in 0..DRAWN {
        let float = any(&mut random);
        let is_time = float.is_finite() && float >= 0.0;
        assert_eq!(units(float).is_some(), is_time, "{:016x}", float.to_bits());
        assert_eq!(units(no_time(&mut random)), None);
        no_times += u64::from(!is_time);
    }
    assert!(no_times > DRAWN / 10, "only {no_times} were no times");
}

#[test]
fn units_by_hand() {
    for (bits, digits, zeros) in [
        (1, 1, 0),
        (SMALLEST_NORMAL - 1, (1 << 52) - 1, 0),
        (SMALLEST_NORMAL, 1, 52),
        (SMALLEST_NORMAL + 1, (1 << 52) + 1, 0),
        (2 * SMALLEST_NORMAL, 1, 53),
        (1.0_f64.to_bits(), 1, 1074),
        (0.625_f64.to_bits(), 5, 1071),
        (LARGEST, (1 << 53) - 1, 2045),
    ] {
        assert_eq!(of(f64::from_bits(bits)), Whole::of(digits, zeros), "{bits:016x}");
    }
}

#[test]
fn ties_go_to_the_even_one() {
    let even = 1_u64 << 53;
    for zeros in [0, 1, 63, 64, 65, 2_045] {
        let nearest = |digits| nearest(Whole::of(digits, zeros));
        for (exact, rounded) in [
            (even - 1, even - 1),
            (even, even),
            (even + 1, even),
            (even + 2, even + 2),
            (even + 3, even + 4),
            (2 * even - 1, 2 * even),
            (2 * even + 2, 2 * even),
            (2 * even + 3, 2 * even + 4),
            (2 * even + 6, 2 * even + 8),
        ] {
            assert_eq!(nearest(exact), Whole::of(rounded, zeros), "{exact} with {zeros} zeros");
        }
    }
}

#[test]
fn one_unit_beside_a_tie_decides() {
    let tie = Whole::of((1 << 54) + 2, 2_000);
    let (below, above) = (Whole::of(1, 2_054), Whole::of((1 << 54) + 4, 2_000));
    assert_eq!(nearest(tie), below);
    assert_eq!(nearest(tie.plus(Whole::of(1, 0))), above);
    // three quarters of the way to the even one below
    assert_eq!(nearest(Whole::of((1 << 54) + 1, 2_000)), below);
    let odd = Whole::of((1 << 54) + 5, 2_000);
    assert_eq!(nearest(odd), above);
}

#[test]
fn from_half_way_past_the_largest_on_it_is_infinite() {
    let largest = f64::from_bits(LARGEST);
    let half = f64::from_bits(1.0_f64.to_bits() + (970 << 52));
    assert_eq!(sum(largest, half), f64::INFINITY.to_bits());
    assert_eq!(sum(largest, f64::from_bits(half.to_bits() - 1)), LARGEST);
    assert_eq!(product(1, largest), LARGEST);
    assert_eq!(product(2, largest), f64::INFINITY.to_bits());
    assert_eq!(product(2, f64::from_bits(LARGEST - SMALLEST_NORMAL)), LARGEST);
    assert_eq!(product((1 << 53) - 1, largest), f64::INFINITY.to_bits());
}

#[test]
fn below_the_smallest_normal_sums_and_products_are_exact() {
    let smallest = f64::from_bits(1);
    for factor in [
        0,
        1,
        2,
        3,
        5,
        1 << 40,
        SMALLEST_NORMAL - 1,
        SMALLEST_NORMAL,
        SMALLEST_NORMAL + 1,
    ] {
        assert_eq!(product(factor, smallest), factor);
    }
    assert_eq!(sum(f64::from_bits(SMALLEST_NORMAL - 1), smallest), SMALLEST_NORMAL);
    assert_eq!(sum(0.0, smallest), 1);
    assert_eq!(sum(-0.0, smallest), 1);
}

#[test]
fn known_products_and_sums() {
    assert_eq!(product(3, 0.1), 0x3FD3_3333_3333_3334);
    assert_eq!(sum(0.1, 0.2), 0x3FD3_3333_3333_3334);
    assert_eq!(product(10, 0.1), 1.0_f64.to_bits());
    assert_eq!(product(3, 1.0 / 3.0), 1.0_f64.to_bits());
    assert_eq!(product(580, 0.125), 72.5_f64.to_bits());
    assert_eq!(product(0, 0.1), 0);
}

#[test]
#[should_panic(expected = "there are words enough")]
fn what_needs_more_words_is_no_number() {
    _ = Whole::of(u64::MAX, 34 * 64 - 64).times(2);
}
