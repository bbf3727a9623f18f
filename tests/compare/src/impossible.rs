//! What makes times impossible, counted where refusal 18 is given for it, and where another goes before.

use crate::sheet::Sheet;
use crate::tally::Tally;
use veilbuzz::Refusal;

/// Impossible times that another refusal goes before, by its number.
pub const BEHIND: &str = "impossible times behind refusal";

/// What makes times impossible, counted where nothing else does.
pub const IMPOSSIBLE: [&str; 16] = [
    "impossible: a period of 0.0",
    "impossible: a period of -0.0",
    "impossible: a period that is a NaN",
    "impossible: an infinite period",
    "impossible: a period below zero",
    "impossible: an overhead that is a NaN",
    "impossible: an infinite overhead",
    "impossible: an overhead below zero",
    "impossible: a latest time that is a NaN",
    "impossible: an infinite latest time",
    "impossible: a latest time below zero",
    "impossible: an earliest time that is a NaN",
    "impossible: an infinite earliest time",
    "impossible: an earliest time below zero",
    "impossible: a window the wrong way round",
    "impossible: a kind that there is not",
];
/// Several of these at once, by how many.
pub const SEVERAL: &str = "impossible for several reasons";

/// Counts what is impossible of a sheet, with what the totals were refused for.
pub fn count(tally: &mut Tally, totals: Option<Refusal>, sheet: Sheet) {
    match (totals, &reasons(sheet)[..]) {
        (_, []) => {}
        (Some(refusal), _) => tally.at(BEHIND, refusal.number),
        (None, [alone]) => tally.add(IMPOSSIBLE[*alone]),
        (None, several) => tally.at(SEVERAL, several.len()),
    }
}

/// Which of the reasons there are.
fn reasons(sheet: Sheet) -> Vec<usize> {
    let no_time = |float: f64, first: usize| {
        let kinds = [float.is_nan(), float.is_infinite(), float.is_finite() && float < 0.0];
        kinds.into_iter().position(|kind| kind).map(|kind| first + kind)
    };
    let zero = (sheet.period == 0.0).then_some(usize::from(sheet.period.is_sign_negative()));
    let latest = no_time(sheet.latest, 8).filter(|_| [1, 2].contains(&sheet.kind));
    let earliest = no_time(sheet.earliest, 11).filter(|_| sheet.kind == 2);
    let wrong_way_round = sheet.kind == 2 && latest.is_none() && earliest.is_none() && sheet.latest < sheet.earliest;
    let all = [
        zero,
        no_time(sheet.period, 2),
        no_time(sheet.overhead, 5),
        latest,
        earliest,
        wrong_way_round.then_some(14),
        (sheet.kind > 2).then_some(15),
    ];
    all.into_iter().flatten().collect()
}
