use std::fmt;

/// One of the refusals of section 11 of the rules: its number, and the place that it names.
#[derive(Clone, Copy, Debug, PartialEq, Eq)]
pub struct Refusal {
    pub number: usize,
    pub place: usize,
}

impl Refusal {
    /// A refusal that names no node.
    pub fn of(number: usize) -> Refusal {
        Refusal { number, place: 0 }
    }

    /// A refusal of a node.
    pub fn at(number: usize, place: usize) -> Refusal {
        Refusal { number, place }
    }
}

impl fmt::Display for Refusal {
    fn fmt(&self, text: &mut fmt::Formatter) -> fmt::Result {
        write!(text, "refused {} at {}", self.number, self.place)
    }
}
