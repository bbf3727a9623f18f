//! The solver of linear programs, and its fractions, on what can be worked out by hand.

use charts::fraction::Fraction;
use charts::simplex::{Program, Solved};

fn whole(number: i128) -> Fraction {
    Fraction::whole(number)
}

fn program(equations: &[(&[i128], i128)], gains: &[i128]) -> Solved {
    let list = |numbers: &[i128]| numbers.iter().map(|&number| whole(number)).collect();
    let program = Program {
        equations: equations
            .iter()
            .map(|&(factors, sum)| (list(factors), whole(sum)))
            .collect(),
        gains: list(gains),
    };
    program.solve()
}

#[test]
fn fractions_are_in_lowest_terms() {
    let (half, third) = (Fraction::of(1, 2), Fraction::of(-2, -6));
    assert_eq!(half + third, Fraction::of(5, 6));
    assert_eq!(third - half, Fraction::of(1, -6));
    assert_eq!(half * third, Fraction::of(3, 18));
    assert_eq!(half / third, Fraction::of(3, 2));
    assert!(third < half && -half < -third && half > Fraction::ZERO);
    assert_eq!(half.clearing(3), 6);
    assert_eq!(Fraction::of(5, 6).clearing(4), 12);
    assert_eq!(Fraction::of(5, 6).times_whole(12), 10);
}

#[test]
fn the_most_and_the_prices() {
    // x + y + s = 4, x + 3y + t = 6: 3x + 5y is most at x = 3, y = 1
    let solved = program(&[(&[1, 1, 1, 0], 4), (&[1, 3, 0, 1], 6)], &[3, 5, 0, 0]);
    let prices = vec![whole(2), whole(1)];
    assert_eq!(
        solved,
        Solved::Most {
            gain: whole(14),
            prices
        }
    );
    // 2x + s = 3 with a gain of 1 each: a fraction
    let solved = program(&[(&[2, 1], 3)], &[1, 0]);
    let (gain, prices) = (Fraction::of(3, 2), vec![Fraction::of(1, 2)]);
    assert_eq!(solved, Solved::Most { gain, prices });
}

#[test]
fn sums_below_0_and_equations_that_say_nothing() {
    // -x - s = -5 is x + s = 5, and the same once more says nothing
    let solved = program(&[(&[-1, -1], -5), (&[2, 2], 10), (&[0, 0], 0)], &[1, 0]);
    let Solved::Most { gain, prices } = solved else {
        panic!("{solved:?}");
    };
    assert_eq!(gain, whole(5));
    assert_eq!(whole(-5) * prices[0] + whole(10) * prices[1], gain);
}

#[test]
fn what_is_impossible_and_what_is_boundless() {
    assert_eq!(program(&[(&[1, 1], -1)], &[1, 1]), Solved::Impossible);
    assert_eq!(program(&[(&[1, 0], 1), (&[1, 0], 2)], &[0, 0]), Solved::Impossible);
    assert_eq!(program(&[(&[1, -1], 1)], &[1, 0]), Solved::Boundless);
}

/// Beale's program, on which the method goes round in a ring without Bland's rule.
#[test]
fn it_ends() {
    let quarter = |numbers: [i128; 7]| numbers.map(|number| Fraction::of(number, 100)).to_vec();
    let program = Program {
        equations: vec![
            (quarter([25, -6_000, -4, 900, 100, 0, 0]), Fraction::ZERO),
            (quarter([50, -9_000, -2, 300, 0, 100, 0]), Fraction::ZERO),
            (quarter([0, 0, 100, 0, 0, 0, 100]), Fraction::ONE),
        ],
        gains: quarter([75, -15_000, 2, -600, 0, 0, 0]),
    };
    let solved = program.solve();
    let Solved::Most { gain, .. } = solved else {
        panic!("{solved:?}");
    };
    assert_eq!(gain, Fraction::of(1, 20));
}
