//! What a text says line by line, comments and spaces left out, and what each line is about.

use crate::lexer::{lines, Kind, Line};
use crate::source::Span;

/// A line that says something.
pub struct Statement {
    /// Counted from 1.
    pub line: usize,
    /// From its first word to its last.
    pub span: Span,
    /// Two lines about the same are two versions of one.
    pub about: String,
    /// Its words and signs, with a space between each two.
    pub said: String,
}

pub fn statements(text: &str) -> Vec<Statement> {
    let numbered = lines(text).enumerate();
    numbered
        .filter_map(|(place, line)| statement(place + 1, line))
        .collect()
}

fn statement(number: usize, line: Line) -> Option<Statement> {
    let mut said = String::new();
    let mut span: Option<Span> = None;
    for token in line.tokens() {
        if !said.is_empty() {
            said.push(' ');
        }
        said += token.text;
        let start = span.map_or(token.span.start, |span| span.start);
        span = Some(Span {
            start,
            end: token.span.end,
        });
    }
    Some(Statement {
        line: number,
        span: span?,
        about: about(line),
        said,
    })
}

/// A node and an address by their names, a fact by all names in it, and any other line by its first word: there is one of them.
fn about(line: Line) -> String {
    let mut rest = line;
    let (first, second) = (rest.take(), rest.take());
    match (first.text, second.kind) {
        (name, Kind::Colon) => format!("{name}:"),
        ("at", _) => format!("at {}", second.text),
        ("fact" | "loop", _) => {
            let words = line.tokens().filter(|token| token.kind == Kind::Word);
            words.map(|word| word.text).collect::<Vec<&str>>().join(" ")
        }
        (word, _) => word.to_string(),
    }
}
