//! That no two charts are written alike.

use crate::given::Given;
use crate::same::{holds, Held};
use crate::tally::Tally;
use std::collections::hash_map::{DefaultHasher, Entry};
use std::collections::HashMap;
use std::hash::{Hash, Hasher};
use std::sync::{LazyLock, Mutex};

/// Charts that were written for the first time, and again.
pub const FRESH: &str = "a chart not written before";
pub const OLD: &str = "a chart written before, from the same numbers";

/// How many charts are remembered. Those that come later are held to them, and then forgotten.
const MOST: usize = 1 << 21;

/// The charts that were written: by a sum of the bytes, a sum of what they were written from.
#[derive(Default)]
pub struct Written(HashMap<u64, u64>);

impl Written {
    /// Holds a chart to all before it, and remembers it. Whether it is the first with these bytes.
    pub fn add(&mut self, given: &Given, bytes: &[u8]) -> Held<bool> {
        let (given, room) = (sum(given), self.0.len() < MOST);
        match self.0.entry(sum(bytes)) {
            Entry::Occupied(known) => holds(*known.get() == given, || {
                "these bytes were written before, from other numbers".into()
            })
            .map(|()| false),
            Entry::Vacant(place) => {
                if room {
                    place.insert(given);
                }
                Ok(true)
            }
        }
    }
}

fn sum(of: &(impl Hash + ?Sized)) -> u64 {
    let mut hasher = DefaultHasher::new();
    of.hash(&mut hasher);
    hasher.finish()
}

/// All charts that any test of this process has written.
static ALL: LazyLock<Mutex<Written>> = LazyLock::new(Mutex::default);

pub fn remember(tally: &mut Tally, given: &Given, bytes: &[u8]) -> Held {
    let first = ALL.lock().expect("no panic").add(given, bytes)?;
    tally.add(if first { FRESH } else { OLD });
    Ok(())
}
