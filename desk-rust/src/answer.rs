//! What a command gives back: words for people, and JSON for scripts.

use crate::json::Value;
use crate::paint::Painted;
use crate::trouble::ANSWERED;

pub struct Answer {
    words: Painted,
    json: Value,
    status: u8,
}

impl Answer {
    pub fn new(words: Painted, json: Value) -> Answer {
        Answer {
            words,
            json,
            status: ANSWERED,
        }
    }

    /// The same answer, with which the desk ends otherwise.
    pub fn ending(self, status: u8) -> Answer {
        Answer { status, ..self }
    }

    /// An answer without colours.
    pub fn plain(words: &str, json: Value) -> Answer {
        let mut plain = Painted::default();
        plain.piece(words, None);
        Answer::new(plain, json)
    }

    /// Lines, the last of them ended; in colours if they are to be painted.
    pub fn words(&self, paint: bool) -> String {
        self.words.text(paint)
    }

    pub fn json(&self) -> &Value {
        &self.json
    }

    /// The exit status.
    pub fn status(&self) -> u8 {
        self.status
    }
}
