//! That a walk lets no wrong class, mark or age pass.

use charts::random::Random;
use charts::Chart;
use compare::ask;
use compare::lent::{used, Lent};
use compare::paid::{pay, Paid};
use compare::same::Held;
use compare::tally::Tally;
use second::cache::Cache;
use second::chart;
use veilbuzz::{Costs, Totals, PASSES};

/// Reads of blocks a, b and a in a row, in one set of so many ways from an unknown start. A walk that finds the cache empty, on what the archive's
/// analysis has written and then a change.
fn walk(ways: u64, change: impl FnOnce(&mut Lent)) -> Held<Paid> {
    let bytes = Chart::straight(&[0x00, 0x10, 0x00]).shaped(0, ways, 0).bytes();
    let chart = chart::Chart::read(&bytes).expect("the chart is accepted");
    let mut tally = Tally::default();
    let lent = Lent::of(&mut Random::new(1), used(3, 2));
    let (_, mut ours) = ask::analyse(&mut tally, &bytes, PASSES, &lent)?;
    change(&mut ours);
    let cache = Cache::empty(chart.header.geometry);
    pay(&mut tally, &chart, &ours, cache, Costs { hit: 1, miss: 10 }, &[0, 1, 2])
}

/// The same with another class of a touch: with one way all three miss, with two the last one hits.
fn classed(ways: u64, touch: usize, class: u8) -> Held<Paid> {
    walk(ways, |ours| ours.classes.lent_mut()[touch] = class)
}

#[test]
fn what_the_analysis_has_written_passes() {
    let Paid { paid, totals, sure } = walk(1, |_| ()).expect("the classes are right");
    assert_eq!((paid, totals, sure), (30, Totals { low: 21, high: 30 }, false));
    let Paid { paid, totals, sure } = walk(2, |_| ()).expect("the classes are right");
    assert_eq!((paid, totals, sure), (21, Totals { low: 3, high: 21 }, false));
}

#[test]
fn another_class_is_refused_unless_it_is_right_too() {
    for (ways, touch, right) in [
        (1, 0, &[2, 3, 5][..]),
        (1, 2, &[2, 3, 5]),
        (1, 4, &[2, 3]),
        (1, 1, &[4]),
        (2, 0, &[2, 3, 5]),
        (2, 4, &[1, 3, 5]),
        (2, 5, &[4]),
    ] {
        for class in 0..=6 {
            let passes = classed(ways, touch, class).is_ok();
            assert_eq!(
                passes,
                right.contains(&class),
                "class {class} of touch {touch}, {ways} ways"
            );
        }
    }
}

#[test]
fn a_second_miss_of_a_kept_block_is_refused() {
    let words = classed(1, 4, 5).err();
    assert!(words.is_some_and(|words| words.ends_with("and its block is kept and has missed")));
}

#[test]
fn other_marks_and_ages_are_refused() {
    assert!(walk(1, |ours| ours.marks.lent_mut()[2] = 0).is_err());
    assert!(walk(1, |ours| ours.must.lent_mut()[0] = 0).is_err());
    assert!(walk(2, |ours| ours.may.lent_mut()[4] = 2).is_err());
}
