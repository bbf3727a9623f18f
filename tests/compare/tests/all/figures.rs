//! What figures are where it can be said without rounding: exact for powers of two, and no smaller for a larger total.

use crate::one_read::{one_read, Lent};
use charts::random_times::halved;
use charts::{Chart, Record};
use compare::deadlines;
use compare::group::Group;
use compare::laws::{Grown, EXACT, GROWTH, MOST_HALVES};
use compare::sheet::Sheet;
use compare::sheets;
use second::limits::NODES;
use veilbuzz::Costs;

/// The most reads, each of two blocks, so that a walk's total comes near 2^43, and the smallest chart.
#[test]
fn powers_of_two_are_exact() {
    let mut group = Group::of("powers of two");
    let largest = Chart::of(vec![Record::read(0x0F).sized(1); NODES]).in_a_row().bytes();
    for chart in [one_read(), largest] {
        group.hold(&chart, |random, tally, chart| {
            for (hit, miss, floor, ceiling) in [
                (0, 0, 0, 0),
                (1, 1, 1, 1),
                (1, 3, 1, 7),
                (65_533, 65_535, 65_531, 65_535),
                (65_535, 65_535, 65_534, 65_535),
            ] {
                let lent = Lent::of(random, chart, Costs { hit, miss }, floor, ceiling);
                let asked = lent.asked(tally, chart)?;
                let sheets: Vec<Sheet> = (0..=MOST_HALVES as u64)
                    .flat_map(|k| [0.0, -0.0].map(|overhead| (halved(k), overhead)))
                    .map(|(period, overhead)| {
                        let sheet = sheets::drawn(random, asked.totals);
                        Sheet {
                            period,
                            overhead,
                            kind: 0,
                            ..sheet
                        }
                    })
                    .collect();
                deadlines::ask_all(random, tally, &asked, sheets.into_iter())?;
            }
            Ok(())
        });
    }
    group.end().expect_each(EXACT, 0..=MOST_HALVES, 10);
}

#[test]
fn figures_grow_with_their_totals() {
    let mut group = Group::of("figures and their totals");
    for _ in 0..100 {
        group.hold(&one_read(), |random, tally, chart| {
            let clock = sheets::clock(random, 100);
            let mut grown = Grown::default();
            for total in (0..=60).chain([255, 256, 257, 32_767, 65_534, 65_535]) {
                let lent = Lent::of(random, chart, Costs { hit: 1, miss: 1 }, total, total);
                let asked = lent.asked(tally, chart)?;
                let sheet = Sheet {
                    kind: 0,
                    ..sheets::with_limits(random, asked.totals, clock)
                };
                if let (Ok(totals), Some(timed)) = (asked.totals, deadlines::ask(random, tally, &asked, sheet)?) {
                    grown.add(totals, timed);
                }
            }
            grown.hold(tally, clock)
        });
    }
    group.end().expect_each(GROWTH, 0..=2, 100);
}
