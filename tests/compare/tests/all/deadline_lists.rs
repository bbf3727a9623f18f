//! The lists of figures and of the answer with every length around the right one.

use crate::one_read::{one_read, Lent};
use compare::group::Group;
use compare::guarded::{long, Guarded};
use compare::raw_deadline::{self, Lists, DEADLINE_ROOM};
use compare::sheet::Sheet;
use compare::times::DEADLINE;
use veilbuzz::Costs;

#[test]
fn lists_of_each_length() {
    const LENGTHS: usize = 6;
    let mut group = Group::of("lists of the deadline");
    let (sound, refused) = (one_read(), vec![1; 7]);
    let sheet = Sheet {
        period: 0.125,
        overhead: 0.0,
        kind: 2,
        earliest: 0.25,
        latest: 2.5,
    };
    let met = sheet;
    let not_met = Sheet { latest: 1.0, ..sheet };
    let impossible = Sheet { period: -0.0, ..sheet };
    for asked_of in [&sound, &refused] {
        group.hold(asked_of, |random, tally, chart| {
            let lent = Lent::of(random, &sound, Costs { hit: 1, miss: 1 }, 2, 20);
            let asked = lent.asked(tally, chart)?;
            for sheet in [met, not_met, impossible] {
                for (figures, answer) in (0..LENGTHS).flat_map(|one| (0..LENGTHS).map(move |other| (one, other))) {
                    let lists = Lists {
                        figures: Guarded::of(random, figures, long),
                        answer: Guarded::of(random, answer, long),
                    };
                    _ = raw_deadline::deadline(tally, &asked, sheet, lists)?;
                }
            }
            Ok(())
        });
    }
    let tally = group.end();
    // of six lengths each, four have room for the figures and three for the answer
    assert_eq!(
        [0, 1, 2, 3].map(|room| tally.count(DEADLINE_ROOM, room)),
        [36, 72, 36, 72]
    );
    assert_eq!([0, 1, 18].map(|number| tally.count(DEADLINE, number)), [24, 36, 12]);
}
