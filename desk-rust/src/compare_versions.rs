//! A line that differs, in words: both versions with their numbers, one under the other, and the words that differ marked.

use crate::compare::Half;
use crate::compare_words::LETTERS;
use crate::differing::{words_apart, Differing};
use crate::lexer::Line;
use crate::paint::Painted;
use crate::problem::{shown, SHOWN};
use crate::source::{Source, Span};
use crate::statements::Statement;

/// A version, and the marks under it, if it has any.
struct Version {
    text: String,
    marks: String,
}

/// The marks are written once, where they are at the same places in both.
pub fn versions(halves: [&Half; 2], line: &Differing, out: &mut Painted) {
    let both = [line.one, line.other];
    let apart = match both {
        [Some(one), Some(other)] => words_apart(one, other),
        _ => [vec![], vec![]],
    };
    let mut versions = [0, 1].map(|place| match both[place] {
        Some(statement) => Version::of(&halves[place].source, statement, &apart[place]),
        None => Version {
            text: "(not there)".into(),
            marks: String::new(),
        },
    });
    if versions[0].marks == versions[1].marks {
        versions[0].marks.clear();
    }
    let numbers = both.map(|statement| statement.map_or(String::new(), |statement| statement.line.to_string()));
    let width = numbers.iter().map(String::len).max().unwrap_or(0);
    for ((letter, number), Version { text, marks }) in LETTERS.iter().zip(numbers).zip(versions) {
        out.line(format!("{letter} {number:>width$} | {text}"));
        if !marks.is_empty() {
            out.line(format!("  {:width$} | {marks}", ""));
        }
    }
}

impl Version {
    /// With one space for each stretch of them; of a long one, what lies around the first word that differs.
    fn of(source: &Source, statement: &Statement, apart: &[usize]) -> Version {
        let line = Source {
            file: String::new(),
            text: source.words(statement.span),
        };
        let spans: Vec<Span> = Line::new(&line.text, 0).tokens().map(|token| token.span).collect();
        let spans: Vec<Span> = apart.iter().map(|place| spans[*place]).collect();
        let first = spans.first().copied().unwrap_or(Span { start: 0, end: 0 });
        let [text, mark] = shown(&line, first);
        let whole = line.text.chars().count() <= SHOWN;
        let marks = match spans.as_slice() {
            [] => String::new(),
            _ if !whole => mark,
            spans => marks(&line.text, spans),
        };
        Version { text, marks }
    }
}

/// A line of marks under these pieces of a text.
fn marks(text: &str, spans: &[Span]) -> String {
    let marked = |at: usize| spans.iter().any(|span| (span.start..span.end).contains(&at));
    let mark = |(at, _): (usize, char)| if marked(at) { '^' } else { ' ' };
    let marks: String = text.char_indices().map(mark).collect();
    marks.trim_end().into()
}
