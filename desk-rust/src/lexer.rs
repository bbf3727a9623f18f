//! A line of a text, token by token.

use crate::source::Span;

#[derive(Clone, Copy, Debug, PartialEq, Eq)]
pub enum Kind {
    /// A name or a word.
    Word,
    /// What begins with a digit, a number or not.
    Number,
    /// `->`
    Arrow,
    /// `..`
    Dots,
    Colon,
    Comma,
    Equals,
    Plus,
    Minus,
    /// `<=`
    AtMost,
    /// `>=`
    AtLeast,
    /// A sign that stands nowhere.
    Other,
    /// The end of the line, or a comment.
    End,
}

#[derive(Clone, Copy, Debug)]
pub struct Token<'a> {
    pub kind: Kind,
    pub text: &'a str,
    pub span: Span,
}

/// What is left of a line. Tokens are made as they are asked for, so that a long line takes no more room than it has.
#[derive(Clone, Copy)]
pub struct Line<'a> {
    rest: &'a str,
    /// Where the rest begins in the whole text.
    at: usize,
    /// Where the last token ended.
    end: usize,
}

fn begins_name(letter: char) -> bool {
    letter.is_alphabetic() || letter == '_'
}

fn in_name(letter: char) -> bool {
    letter.is_alphanumeric() || matches!(letter, '_' | '.' | '$')
}

fn in_number(letter: char) -> bool {
    letter.is_alphanumeric() || letter == '_'
}

/// How long the start of a text is whose letters pass.
fn length(text: &str, passes: fn(char) -> bool) -> usize {
    text.find(|letter| !passes(letter)).unwrap_or(text.len())
}

/// What some editors put before a text.
const MARK: char = '\u{FEFF}';

/// The lines of a text in their order.
pub fn lines(text: &str) -> impl Iterator<Item = Line<'_>> {
    let rest = text.strip_prefix(MARK).unwrap_or(text);
    let mut at = text.len() - rest.len();
    rest.split_inclusive('\n').map(move |line| {
        at += line.len();
        Line::new(line, at - line.len())
    })
}

impl<'a> Line<'a> {
    /// A line that begins at a place of the whole text.
    pub fn new(line: &'a str, at: usize) -> Line<'a> {
        Line {
            rest: line,
            at,
            end: at,
        }
    }

    /// The tokens up to the end or a comment.
    pub fn tokens(mut self) -> impl Iterator<Item = Token<'a>> {
        std::iter::from_fn(move || Some(self.take()).filter(|token| token.kind != Kind::End))
    }

    pub fn peek(&self) -> Token<'a> {
        let mut line = *self;
        line.take()
    }

    pub fn take(&mut self) -> Token<'a> {
        let trimmed = self.rest.trim_start();
        self.at += self.rest.len() - trimmed.len();
        self.rest = trimmed;
        let (kind, length) = match trimmed.chars().next() {
            None | Some('#') => {
                let span = Span {
                    start: self.end,
                    end: self.end,
                };
                return Token {
                    kind: Kind::End,
                    text: "",
                    span,
                };
            }
            Some(':') => (Kind::Colon, 1),
            Some(',') => (Kind::Comma, 1),
            Some('=') => (Kind::Equals, 1),
            Some('+') => (Kind::Plus, 1),
            Some('-') if trimmed.starts_with("->") => (Kind::Arrow, 2),
            Some('-') => (Kind::Minus, 1),
            Some('<') if trimmed.starts_with("<=") => (Kind::AtMost, 2),
            Some('>') if trimmed.starts_with(">=") => (Kind::AtLeast, 2),
            Some('.') if trimmed.starts_with("..") => (Kind::Dots, 2),
            Some('0'..='9') => (Kind::Number, length(trimmed, in_number)),
            Some(letter) if begins_name(letter) => (Kind::Word, length(trimmed, in_name)),
            Some(letter) => (Kind::Other, letter.len_utf8()),
        };
        let (text, rest) = trimmed.split_at(length);
        let span = Span {
            start: self.at,
            end: self.at + length,
        };
        self.rest = rest;
        self.at = span.end;
        self.end = span.end;
        Token { kind, text, span }
    }
}
