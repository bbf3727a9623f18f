//! That the laws of figures let nothing else pass.

use compare::expected::{self, Timed};
use compare::laws::{self, Grown};
use compare::sheet::Sheet;
use compare::tally::Tally;
use veilbuzz::Totals;

const SHEET: Sheet = Sheet {
    period: 0.125,
    overhead: 0.0,
    kind: 2,
    earliest: 0.25,
    latest: 2.5,
};

const TOTALS: Totals = Totals { low: 2, high: 20 };

/// What is told of these totals, which come to 0.25 and 2.5, and then a change.
fn told(change: fn(&mut Timed)) -> Timed {
    let mut timed = expected::deadline(Ok(TOTALS), SHEET).expect("all times are possible");
    change(&mut timed);
    timed
}

fn holds(change: fn(&mut Timed)) -> bool {
    laws::hold(&mut Tally::default(), TOTALS, SHEET, told(change)).is_ok()
}

fn walk_holds(paid: u64, change: fn(&mut Timed)) -> bool {
    laws::walk(&mut Tally::default(), paid, SHEET, told(change)).is_ok()
}

#[test]
fn another_bit_of_an_exact_figure_is_refused() {
    assert!(holds(|_| ()));
    assert!(!holds(|timed| timed.figures[0] += 1));
    assert!(!holds(|timed| timed.figures[1] -= 1));
    assert!(!holds(|timed| timed.figures.swap(0, 1)));
}

#[test]
fn figures_that_do_not_grow_are_refused() {
    let grows = |other: Totals, change: fn(&mut Timed)| {
        let mut grown = Grown::default();
        grown.add(TOTALS, told(|_| ()));
        grown.add(other, told(change));
        grown.hold(&mut Tally::default(), SHEET.clock()).is_ok()
    };
    assert!(grows(TOTALS, |_| ()));
    assert!(!grows(TOTALS, |timed| timed.figures[1] += 1));
    assert!(!grows(Totals { low: 3, high: 21 }, |timed| timed.figures[0] -= 1));
    assert!(!grows(Totals { low: 1, high: 21 }, |timed| timed.figures[0] += 1));
    assert!(grows(Totals { low: 3, high: 19 }, |_| ()));
}

#[test]
fn a_walk_outside_its_figures_is_refused() {
    for paid in 0..=22 {
        assert_eq!(walk_holds(paid, |_| ()), (2..=20).contains(&paid), "{paid}");
    }
}

#[test]
fn a_walk_outside_a_deadline_that_is_met_is_refused() {
    let wider = |paid| walk_holds(paid, |timed| timed.figures = [0, 3.0_f64.to_bits()]);
    assert!(wider(2) && wider(20) && !wider(1) && !wider(21));
    let not_met = |paid| {
        walk_holds(paid, |timed| {
            timed.figures = [0, 3.0_f64.to_bits()];
            timed.met = false;
        })
    };
    assert!(not_met(1) && not_met(21) && !not_met(25));
}
