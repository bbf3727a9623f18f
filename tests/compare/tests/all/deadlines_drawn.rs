//! Deadlines that are drawn: of any bits, and near what matters.

use crate::one_read::with_totals;
use charts::random_times::bits;
use compare::deadlines;
use compare::group::Group;
use compare::sheet::Sheet;
use compare::times::{DEADLINE, VERDICT};

#[test]
fn any_bits() {
    let mut group = Group::of("deadlines of any bits");
    with_totals(&mut group, 2, 20, |random, tally, asked| {
        // most are refused; without their signs, half of those that are left are a window the wrong way round
        for positive in [false, true] {
            let mut any = || f64::from_bits(bits(random) << u32::from(positive) >> u32::from(positive));
            let sheets: Vec<Sheet> = (0..200_000)
                .map(|number| Sheet {
                    period: any(),
                    overhead: any(),
                    kind: number % 4,
                    earliest: any(),
                    latest: any(),
                })
                .collect();
            deadlines::ask_all(random, tally, asked, sheets.into_iter())?;
        }
        Ok(())
    });
    let tally = group.end();
    tally.expect_each(DEADLINE, 0..=0, 60_000);
    tally.expect_each(DEADLINE, 18..=18, 100_000);
}

#[test]
fn many_that_are_drawn() {
    let mut group = Group::of("deadlines that are drawn");
    for _ in 0..1_000 {
        let high = group.random.below(1 << 16) as u16 >> group.random.below(16);
        let low = if group.random.once_in(3) {
            high
        } else {
            group.random.within(0, high.into()) as u16
        };
        with_totals(&mut group, low, high, |random, tally, asked| {
            deadlines::draw(random, tally, asked, 500)
        });
    }
    let tally = group.end();
    tally.expect_each(DEADLINE, 0..=0, 200_000);
    for verdict in VERDICT {
        tally.expect(verdict, 1_000);
    }
}
