use std::fmt;

/// What is known of a touch. A node has two classes, one for each touch that it can make. The numbers are those of rule 8.1, the words those of
/// rule 14.2.
#[derive(Clone, Copy, Debug, PartialEq, Eq)]
pub enum Class {
    /// No walk comes here.
    Unreached = 0,
    /// The touch always hits.
    Hit = 1,
    /// The touch always misses.
    Miss = 2,
    /// None of the others can be told.
    Unsure = 3,
    /// The node makes no such touch: no first one at a bare step, and a second one only where a reference goes into a second block.
    None = 4,
    /// On any walk at most one of the touches of a block that are called so misses, and all others of them hit.
    Kept = 5,
}

impl Class {
    /// The class of a number that the analysis wrote; it writes 0 to 5.
    pub fn of(number: u8) -> Option<Class> {
        match number {
            0 => Some(Class::Unreached),
            1 => Some(Class::Hit),
            2 => Some(Class::Miss),
            3 => Some(Class::Unsure),
            4 => Some(Class::None),
            5 => Some(Class::Kept),
            _ => None,
        }
    }
}

impl fmt::Display for Class {
    fn fmt(&self, text: &mut fmt::Formatter) -> fmt::Result {
        text.write_str(match self {
            Class::Unreached => "unreached",
            Class::Hit => "hit",
            Class::Miss => "miss",
            Class::Unsure => "unsure",
            Class::None => "none",
            Class::Kept => "kept",
        })
    }
}
