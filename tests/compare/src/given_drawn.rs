//! What charts are written from, drawn: whole, damaged, too wide, of other lengths.

use crate::given::Given;
use crate::given_damage::damage;
use crate::given_wide::{lengthen, widen};
use crate::same::Held;
use crate::tally::Tally;
use crate::writing::hold;
use charts::random::Random;

/// The kinds, as they are counted: how many were refused, and how many were written.
pub const DRAWN: [&str; 5] = [
    "written from a whole chart",
    "written from damaged numbers",
    "written from a number at the width of its field or past it",
    "written from lists of other lengths",
    "written from several of these",
];

/// A whole chart through the writer, and what becomes of it in each of these ways.
pub fn trial(random: &mut Random, tally: &mut Tally, whole: &Given) -> Held {
    for (kind, word) in DRAWN.into_iter().enumerate() {
        let mut given = whole.clone();
        match kind {
            0 => {}
            1 => {
                for _ in 0..random.within(1, 3) {
                    damage(random, tally, &mut given);
                }
            }
            2 => widen(random, tally, &mut given),
            3 => lengthen(random, tally, &mut given),
            _ => {
                damage(random, tally, &mut given);
                if random.once_in(2) {
                    widen(random, tally, &mut given);
                }
                if random.once_in(2) {
                    lengthen(random, tally, &mut given);
                }
            }
        }
        let written = hold(random, tally, &given)?;
        tally.at(word, written.into());
    }
    Ok(())
}
