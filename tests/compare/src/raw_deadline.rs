//! The deadline without the wrapper: the bits of both figures, all numbers of the answer, and lists for them of any length.

use crate::ask::{self, LentBounds};
use crate::expected::{self, Timed};
use crate::guarded::Guarded;
use crate::raw::{has_room, list, refused, tells, told};
use crate::same::Held;
use crate::sheet::Sheet;
use crate::table::LentTable;
use crate::tally::Tally;
use crate::times;
use charts::random::Random;
use veilbuzz::raw::{veilbuzz_deadline, DEADLINE_LENGTH, FIGURES_LENGTH};
use veilbuzz::{Costs, Refusal, Totals};

/// How the lengths of the list of figures are counted.
pub const FIGURES_LIST: &str = "figures list of length";

/// How the room in the two lists is counted: 0 in neither, 1 in the figures' alone, 2 in the answer's alone, 3 in both.
pub const DEADLINE_ROOM: &str = "room in the lists of veilbuzz_deadline";

/// A question to the totals as it is lent, and what they answer.
#[derive(Clone, Copy)]
pub struct Asked<'a> {
    pub chart: &'a [u8],
    pub table: &'a LentTable,
    pub costs: Costs,
    pub bounds: &'a LentBounds,
    pub totals: Result<Totals, Refusal>,
}

/// Where the figures and the answer are told. The figures are held as bits: two floats may be equal and not the same.
#[derive(Clone)]
pub struct Lists {
    pub figures: Guarded<u64>,
    pub answer: Guarded<u64>,
}

impl Lists {
    /// With room or without it.
    pub fn any(random: &mut Random) -> Lists {
        Lists {
            figures: list(random, FIGURES_LENGTH),
            answer: list(random, DEADLINE_LENGTH),
        }
    }
}

/// Asks with a sheet. What is told, if there is room and nothing is refused.
pub fn deadline(tally: &mut Tally, asked: &Asked, sheet: Sheet, lists: Lists) -> Held<Option<Timed>> {
    let Lists { mut figures, answer } = lists;
    let room = [has_room(&figures, FIGURES_LENGTH), has_room(&answer, DEADLINE_LENGTH)];
    tally.at(FIGURES_LIST, figures.lent().len());
    tally.at(DEADLINE_ROOM, usize::from(room[0]) + 2 * usize::from(room[1]));
    let expected = (room == [true, true]).then(|| expected::deadline(asked.totals, sheet));
    let left = match expected {
        Some(Ok(timed)) => told(&figures, &timed.figures),
        Some(Err(_)) => told(&figures, &[0; FIGURES_LENGTH]),
        None => figures.clone(),
    };
    let numbers =
        expected.map(|expected| expected.map_or_else(refused::<DEADLINE_LENGTH>, |timed| [0, 0, timed.met.into()]));
    let (table, bounds, place) = (asked.table.to_archive(), asked.bounds.bounds(), figures.lent_mut());
    tells(tally, "veilbuzz_deadline", answer, numbers, |answer, length| unsafe {
        veilbuzz_deadline(
            asked.chart.as_ptr(),
            asked.chart.len(),
            table.must.as_ptr(),
            table.must.len(),
            table.may.as_ptr(),
            table.may.len(),
            table.marks.as_ptr(),
            table.marks.len(),
            asked.costs.hit,
            asked.costs.miss,
            bounds.floors.as_ptr(),
            bounds.floors.len(),
            bounds.ceilings.as_ptr(),
            bounds.ceilings.len(),
            sheet.period,
            sheet.overhead,
            sheet.kind,
            sheet.earliest,
            sheet.latest,
            place.as_mut_ptr().cast(),
            place.len(),
            answer,
            length,
        )
    })
    .and_then(|()| figures.same("the figures, as bits,", &left))
    .map_err(|words| format!("{words}, of {:?}, {sheet:?}", asked.totals))?;
    let Some(expected) = expected else { return Ok(None) };
    // through the wrapper where the figures have just their room: one call in a few is enough, and each takes as long as the totals
    if figures.lent().len() == FIGURES_LENGTH {
        ask::deadline(asked, sheet, expected)?;
    }
    times::count(tally, asked.totals, sheet, expected);
    Ok(expected.ok())
}
