//! How each class looks in a picture: an outline, a colour and a word, so that none of them has to carry it alone.

use crate::outline::Outline;
use veilbuzz::Class;

pub struct Look {
    pub outline: Outline,
    /// Of its border, and behind its word.
    pub ink: &'static str,
    /// Of what is within the border.
    pub paper: &'static str,
    /// How wide the border is.
    pub border: f64,
    pub dashed: bool,
    /// What the word means, in few words.
    pub meaning: &'static str,
}

/// The worst first.
pub const CLASSES: [Class; 6] = [
    Class::Miss,
    Class::Unsure,
    Class::Kept,
    Class::Hit,
    Class::Unreached,
    Class::None,
];

/// The class that a node looks like which has these two.
pub fn worst(classes: [Class; 2]) -> Class {
    CLASSES
        .into_iter()
        .find(|class| classes.contains(class))
        .unwrap_or(classes[0])
}

pub fn look(class: Class) -> Look {
    let (outline, ink, paper, border, meaning) = match class {
        Class::Hit => (Outline::Pill, "#1b6e3c", "#e4f2e6", 1.5, "always in the cache"),
        Class::Miss => (Outline::Sharp, "#a3232b", "#f8d9d6", 3.0, "never in the cache"),
        Class::Kept => (Outline::Octagon, "#1f5f8b", "#dcebf7", 1.5, "stays once it is loaded"),
        Class::Unsure => (Outline::Hexagon, "#8f4f00", "#fbe9c8", 1.5, "cannot be told"),
        Class::Unreached => (Outline::Sharp, "#66707c", "#f6f4ee", 1.5, "no walk comes there"),
        Class::None => (Outline::Rounded, "#66707c", "#ffffff", 1.5, "a step without a touch"),
    };
    Look {
        outline,
        ink,
        paper,
        border,
        dashed: class == Class::Unreached,
        meaning,
    }
}

/// Of words, and of the entry's border.
pub const INK: &str = "#1d2733";

/// Of arrows.
pub const LINE: &str = "#47525f";

/// Behind the whole picture, and around it.
pub const GROUND: [&str; 2] = ["#f6f4ee", "#c9c4b6"];

/// How wide the entry's border is.
pub const BOLD: f64 = 4.0;

/// The strokes and gaps of what no walk comes to.
pub const DASHES: &str = "5 4";
