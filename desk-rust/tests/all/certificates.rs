//! The parts of which certificates are made: programs, what a solver leaves, fractions, potentials.

use crate::trying::made;
use desk::fact::Fact;
use desk::findings::Findings;
use desk::flow::Flow;
use desk::fractions::{fine, whole, Whole};
use desk::lp::program;
use desk::potentials::potentials;
use desk::solution::{solution, Solution};
use veilbuzz::{Costs, Side};

/// A loop of one node, with a node that no walk comes to.
const LOOP: &str = "cache line 16 sets 1 ways 1 start empty\nentry a\n\
                    old: read 0x10 -> a\na: read 0x00 -> a, b\nb: read 0x10\nfact 2 a + old <= 7\n";

const COSTS: Costs = Costs { hit: 1, miss: 10 };

/// The flow of the loop for a side, and its fact.
fn looped(side: Side) -> (Flow, Fact) {
    let known = made(LOOP);
    let findings = Findings::of(&known).unwrap_or_else(|trouble| panic!("{}", trouble.words()));
    let fact = known.facts[0].at_most.clone().expect("it is at most");
    (Flow::of(&findings, COSTS, side), fact)
}

#[test]
fn a_program_has_a_row_for_each_condition() {
    let (high, fact) = looped(Side::High);
    let rows = "r1\n+2 m0 = 1\nr2 = 10\np1 - r1 >= 0\n- r1 >= 0\np2 - p1 - r2 >= 0\nP - p1 >= 0\nP - p2 >= 0\n";
    let bounds = "P free\np1 free\nr1 free\np2 free\nr2 free\n";
    let expected = format!("Minimize\n+7 m0\n+1 P\nSubject To\n{rows}Bounds\n{bounds}End\n");
    assert_eq!(program(&high, &[&fact]), expected);
    let (low, _) = looped(Side::Low);
    let expected = expected.replace("m0 = 1\n", "m0 = -1\n").replace("= 10\n", "= -10\n");
    assert_eq!(program(&low, &[&fact]), expected);
}

#[test]
fn what_a_solver_leaves_is_read_and_nothing_else_is() {
    let file = "c Problem:\ns bas 3 3 f f 9.5\ni 1 s 1 1\nj 1 b 3.5 0\nj 2 l 0 -1\nj 3 b 1e3 0\ne o f\n";
    assert_eq!(solution(file, 2), Some(Solution::Best(vec![3.5, 0.0])));
    assert_eq!(solution(file, 0), Some(Solution::Best(vec![])));
    assert_eq!(solution(&file.replace("f f", "n f"), 2), Some(Solution::None));
    assert_eq!(solution(&file.replace("f f", "n n"), 2), Some(Solution::None));
    assert_eq!(solution(&file.replace("f f", "f n"), 2), Some(Solution::Endless));
    for (text, columns) in [
        (file.to_string(), 4),
        (file.replace("f f", "u u"), 2),
        (file.replace("f f", "f u"), 2),
        (file.replace("s bas", "s ipt"), 2),
        (file.replace("3.5", "inf"), 2),
        (file.replace("3.5", "NaN"), 2),
        (file.replace("3.5", "much"), 2),
        (file.replace("j 1 ", "j -1 "), 2),
        (String::new(), 0),
    ] {
        assert_eq!(solution(&text, columns), None, "{text}");
    }
    assert_eq!(solution(&file.replace("j 1 ", "j 0 "), 2), None, "there is no column 0");
}

/// What values become over a denominator, if that is tried.
fn over(values: &[f64], denominator: u64) -> Option<Vec<i64>> {
    let found = whole(values)
        .into_iter()
        .rfind(|whole| whole.denominator == denominator);
    found.map(|whole| whole.multipliers)
}

#[test]
fn values_become_whole_numbers_over_one_denominator() {
    assert_eq!(over(&[0.0, 1.0, 12.0], 1), Some(vec![0, 1, 12]));
    assert_eq!(over(&[0.5, 3.0], 2), Some(vec![1, 6]));
    assert_eq!(over(&[3.0 / 7.0, 1.0 / 7.0], 7), Some(vec![3, 1]));
    assert_eq!(over(&[1.0 / 3.0, 5.0 / 4.0, 7.0], 12), Some(vec![4, 15, 84]));
    assert_eq!(over(&[65_535.0 / 65_537.0], 65_537), Some(vec![65_535]));
}

#[test]
fn noise_of_a_solver_is_no_fraction() {
    let noisy = [0.333_333_333_333_3, 2.000_000_000_01, -1e-17, 1e-13, 4.999_999_999_99];
    assert_eq!(over(&noisy, 3), Some(vec![1, 6, 0, 0, 15]));
    let first = &whole(&noisy[1..])[0];
    assert_eq!((first.denominator, &first.multipliers[..]), (1, &[2, 0, 0, 5][..]));
}

#[test]
fn what_has_no_small_denominator_is_rounded_up_in_fine_steps() {
    let values = [std::f64::consts::PI, 1.0 / 999_983.0, 1.0 / 999_979.0];
    assert!(
        whole(&values).iter().all(|whole| whole.denominator == 1),
        "these have none in common"
    );
    let Whole {
        denominator,
        multipliers,
    } = fine(&values).expect("they are in their range");
    let stands_for = |multiplier: i64| multiplier as f64 / denominator as f64;
    for (value, multiplier) in values.into_iter().zip(multipliers) {
        assert!(
            (value..value + 1e-5).contains(&stands_for(multiplier)),
            "{value} {multiplier}"
        );
    }
}

#[test]
fn numbers_past_their_range_are_left_out() {
    assert!(whole(&[1e300]).is_empty() && whole(&[f64::MAX, f64::MAX]).is_empty());
    assert_eq!(fine(&[(1u64 << 17) as f64]), None);
    let large = whole(&[(1u64 << 36) as f64]);
    assert!(
        large.iter().all(|whole| whole.denominator == 1) && !large.is_empty(),
        "{large:?}"
    );
}

#[test]
fn potentials_are_the_most_that_a_walk_is_left_with() {
    let (high, fact) = looped(Side::High);
    let of = |denominator, multiplier| {
        let multipliers = vec![multiplier];
        potentials(
            &high,
            &[&fact],
            &Whole {
                denominator,
                multipliers,
            },
        )
    };
    // a visit of a is left with 1 - 2 * 1/2, one of b with its miss
    assert_eq!(of(2, 1), Some(vec![0, 0, 20]));
    assert_eq!(of(1, 1), Some(vec![0, -1, 9]));
    assert_eq!(of(1, 0), None, "the loop leaves more at each turn");
    assert_eq!(of(1, i64::MAX), None, "past their range");
}
