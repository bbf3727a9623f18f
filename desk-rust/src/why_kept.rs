//! What follows from the blocks that were touched since: that a block stays, or that it may be pushed out. In sentences.

use crate::paint::Painted;
use crate::why::Reasons;
use crate::words::{block, counted};
use veilbuzz::Class;

/// Of a touch whose ages tell neither a hit nor a miss; of others there is nothing to say.
pub fn stays(reasons: &Reasons, ways: usize, out: &mut Painted) {
    let since = &reasons.since;
    let others = match since.others.len() {
        0 => "No other block since then".into(),
        others => format!(
            "{} since then, and {}",
            counted(others, "other block"),
            counted(ways, "way")
        ),
    };
    match reasons.class {
        Class::Kept => {
            out.line("");
            out.line(match since.last.is_empty() {
                true => "On every walk this is the first touch of it.".into(),
                false => format!("{others}: it is not pushed out, and stays once it is loaded."),
            });
            out.line(format!(
                "On any walk, of the touches of block {} that are called kept, at most the first misses.",
                block(reasons.touch.block)
            ));
        }
        Class::Unsure => {
            out.line("");
            out.line(format!(
                "{others}: that it stays cannot be told, so it is not called kept."
            ));
        }
        _ => {}
    }
}
