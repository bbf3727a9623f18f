//! The deadline, asked with many sheets beside one question to the totals.

use crate::expected::Timed;
use crate::guarded::{long, Guarded};
use crate::laws;
use crate::raw_deadline::{deadline, Asked, Lists};
use crate::same::Held;
use crate::sheet::Sheet;
use crate::sheets;
use crate::tally::Tally;
use charts::random::Random;
use veilbuzz::raw::{DEADLINE_LENGTH, FIGURES_LENGTH};

/// Lists that have room, now and then none.
fn lists(random: &mut Random) -> Lists {
    if random.once_in(6) {
        return Lists::any(random);
    }
    let mut with_room = |numbers: usize| {
        let more = random.below(4) as usize;
        Guarded::of(random, numbers + more, long)
    };
    Lists {
        figures: with_room(FIGURES_LENGTH),
        answer: with_room(DEADLINE_LENGTH),
    }
}

/// Asks with one sheet. What is told, if anything is.
pub fn ask(random: &mut Random, tally: &mut Tally, asked: &Asked, sheet: Sheet) -> Held<Option<Timed>> {
    let lists = lists(random);
    let timed = deadline(tally, asked, sheet, lists)?;
    if let (Ok(totals), Some(timed)) = (asked.totals, timed) {
        laws::hold(tally, totals, sheet, timed)?;
    }
    Ok(timed)
}

/// Asks with all of these sheets. What is lent to be read stays as it was.
pub fn ask_all(random: &mut Random, tally: &mut Tally, asked: &Asked, sheets: impl Iterator<Item = Sheet>) -> Held {
    let before = (asked.table.clone(), asked.bounds.clone());
    for sheet in sheets {
        _ = ask(random, tally, asked, sheet)?;
    }
    asked.table.same(&before.0)?;
    asked.bounds.same(&before.1)
}

/// Asks with so many sheets that are drawn.
pub fn draw(random: &mut Random, tally: &mut Tally, asked: &Asked, count: usize) -> Held {
    let sheets: Vec<Sheet> = (0..count).map(|_| sheets::drawn(random, asked.totals)).collect();
    ask_all(random, tally, asked, sheets.into_iter())
}
