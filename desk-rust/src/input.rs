//! What a command is asked about: a file or standard input, text or a chart of bytes.

use crate::known::Known;
use crate::made::made;
use crate::problem::{Problem, Problems};
use crate::source::{Source, Span};
use crate::trouble::Trouble;
use std::ffi::OsStr;
use std::fs::File;
use std::io::{self, Read};
use std::path::Path;

/// The bytes of a file, and what it is called in answers.
pub struct Input {
    pub file: String,
    pub bytes: Vec<u8>,
}

/// The first byte of every chart, which no text begins with (rule 1.2).
const EDITION: u8 = 1;

/// No more is read of a file: a chart is far shorter, and so is its text.
const MOST: u64 = 4 << 20;

/// What standard input is called.
pub const STANDARD_INPUT: &str = "-";

pub fn input(path: &OsStr) -> Result<Input, Trouble> {
    let mut bytes = vec![];
    let (file, read) = if path == STANDARD_INPUT {
        let read = io::stdin().lock().take(MOST + 1).read_to_end(&mut bytes);
        ("standard input".to_string(), read)
    } else {
        (called(path), open(path)?.take(MOST + 1).read_to_end(&mut bytes))
    };
    if let Err(error) = read {
        return Err(Trouble::Files(format!("{file} cannot be read: {error}")));
    }
    if bytes.len() as u64 > MOST {
        return Err(Trouble::Unanswered {
            what: format!("{file} is longer than {} MiB", MOST >> 20),
            mend: "is it a chart at all? The largest is far shorter, in bytes and in words".into(),
        });
    }
    Ok(Input { file, bytes })
}

/// What a file is called in answers: a terminal is told no more than text.
fn called(path: &OsStr) -> String {
    let shown = |letter: char| {
        if letter.is_control() {
            char::REPLACEMENT_CHARACTER
        } else {
            letter
        }
    };
    path.to_string_lossy().chars().map(shown).collect()
}

fn open(path: &OsStr) -> Result<File, Trouble> {
    let file = called(path);
    if Path::new(path).is_dir() {
        return Err(Trouble::Files(format!(
            "{file} is a folder; name one chart, as in: ./desk report charts/loop.txt"
        )));
    }
    File::open(path).map_err(|error| {
        Trouble::Files(match error.kind() {
            io::ErrorKind::NotFound => format!("there is no file '{file}'; './desk new' prints a chart to begin with"),
            _ => format!("{file} cannot be read: {error}"),
        })
    })
}

impl Input {
    pub fn is_chart(&self) -> bool {
        self.bytes.first() == Some(&EDITION)
    }

    /// Whether it is a text, and not a damaged chart: no chart is without a byte 0.
    pub fn is_text(&self) -> bool {
        let can_be = !self.is_chart() && !self.bytes.is_empty() && !self.bytes.contains(&0);
        can_be && std::str::from_utf8(&self.bytes).is_ok()
    }

    /// The chart, made from its text if it is one.
    pub fn known(self) -> Result<Known, Trouble> {
        if self.is_chart() {
            self.read()
        } else {
            made(self.source()?)
        }
    }

    /// The chart of these bytes.
    pub fn read(self) -> Result<Known, Trouble> {
        let Input { file, bytes } = self;
        Known::of_chart(&file, bytes).map_err(|refusal| Trouble::Refused { file, refusal })
    }

    /// These bytes as a text.
    pub fn source(self) -> Result<Source, Trouble> {
        let Input { file, bytes } = self;
        match String::from_utf8(bytes) {
            Ok(text) => Ok(Source { file, text }),
            Err(error) => {
                let start = error.utf8_error().valid_up_to();
                let byte = error.as_bytes()[start];
                let text = String::from_utf8_lossy(error.as_bytes()).into_owned();
                let problem = Problem {
                    code: "not-text",
                    span: Span { start, end: start },
                    found: format!("the byte 0x{byte:02X} is not UTF-8 text"),
                    may: "text in UTF-8; a chart of bytes has 01 as its first".into(),
                    mend: Some("save the text as UTF-8".into()),
                };
                Err(Trouble::Text(Source { file, text }, Problems::one(problem)))
            }
        }
    }
}
