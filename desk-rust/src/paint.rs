//! A text of which pieces have a colour, for a terminal that shows it.

use veilbuzz::Class;

#[derive(Clone, Copy, Debug, PartialEq, Eq)]
pub enum Colour {
    Red,
    Yellow,
    Green,
    Cyan,
    Dim,
    Bold,
}

impl Colour {
    /// As a terminal knows it (ECMA-48, SGR).
    fn code(self) -> u8 {
        match self {
            Colour::Bold => 1,
            Colour::Dim => 2,
            Colour::Red => 31,
            Colour::Green => 32,
            Colour::Yellow => 33,
            Colour::Cyan => 36,
        }
    }

    /// The colour of a class's word.
    pub fn of(class: Class) -> Option<Colour> {
        match class {
            Class::Hit => Some(Colour::Green),
            Class::Miss => Some(Colour::Red),
            Class::Kept => Some(Colour::Cyan),
            Class::Unsure => Some(Colour::Yellow),
            Class::Unreached => Some(Colour::Dim),
            Class::None => None,
        }
    }
}

struct Piece {
    text: String,
    colour: Option<Colour>,
}

#[derive(Default)]
pub struct Painted(Vec<Piece>);

impl Painted {
    pub fn piece(&mut self, text: impl Into<String>, colour: Option<Colour>) {
        self.0.push(Piece {
            text: text.into(),
            colour,
        });
    }

    /// A text without colour, and the end of the line.
    pub fn line(&mut self, text: impl Into<String>) {
        self.piece(text, None);
        self.piece("\n", None);
    }

    /// The whole text, in colours if it is to be painted.
    pub fn text(&self, paint: bool) -> String {
        let mut whole = String::new();
        for Piece { text, colour } in &self.0 {
            match colour.filter(|_| paint) {
                Some(colour) => whole += &format!("\x1B[{}m{text}\x1B[0m", colour.code()),
                None => whole += text,
            }
        }
        whole
    }
}
