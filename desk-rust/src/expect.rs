//! What is asked of the next token of a line, and what is said where it is another.

use crate::lexer::{Kind, Line, Token};
use crate::near::nearest;
use crate::number::{address, number, told, Placed};
use crate::problem::{is_unseen, Problem};
use crate::source::Span;

/// A token as a sentence names it.
pub fn named(token: Token) -> String {
    match token.kind {
        Kind::Other if token.text.chars().all(is_unseen) => {
            let code = token.text.chars().next().map_or(0, u32::from);
            format!("a sign that is not seen (U+{code:04X})")
        }
        _ => format!("'{}'", told(token.text)),
    }
}

/// That a token is not what may stand there.
pub fn unexpected(token: Token, may: &str, mend: Option<String>) -> Problem {
    Problem {
        code: "unexpected",
        span: token.span,
        found: match token.kind {
            Kind::End => "the line ends too early".into(),
            _ => format!("{} does not fit here", named(token)),
        },
        may: may.into(),
        mend,
    }
}

/// The same where words may stand: one that is near is suggested.
pub fn unexpected_word(token: Token, words: &[&str], may: &str) -> Problem {
    let meant = match token.kind {
        Kind::Word => nearest(token.text, words.iter().copied()),
        _ => None,
    };
    unexpected(token, may, meant.map(|word| format!("write '{word}'")))
}

/// What is to be done with a sign that stands between words by habit.
pub fn without_sign(token: Token) -> Option<String> {
    matches!(token.kind, Kind::Comma | Kind::Equals).then(|| "leave it out".into())
}

pub fn a_number(line: &mut Line, may: &str) -> Result<Placed<u64>, Problem> {
    let token = line.take();
    match token.kind {
        Kind::Number => number(token),
        _ => Err(unexpected(token, may, without_sign(token))),
    }
}

pub fn an_address(line: &mut Line, may: &str) -> Result<Placed<u64>, Problem> {
    let token = line.take();
    match token.kind {
        Kind::Number => address(token),
        _ => Err(unexpected(token, may, without_sign(token))),
    }
}

/// A number of 16 bits, of costs and visits.
pub fn a_short_number(line: &mut Line, may: &str) -> Result<Placed<u16>, Problem> {
    let Placed { value, span } = a_number(line, may)?;
    match u16::try_from(value) {
        Ok(value) => Ok(Placed { value, span }),
        Err(_) => Err(Problem {
            code: "number-past-its-width",
            span,
            found: format!("{value} is too large: costs and visits are 16-bit numbers"),
            may: format!("a number from 0 to {}", u16::MAX),
            mend: None,
        }),
    }
}

pub fn a_name<'a>(line: &mut Line<'a>, may: &str) -> Result<Placed<&'a str>, Problem> {
    let token = line.take();
    match token.kind {
        Kind::Word => Ok(Placed {
            value: token.text,
            span: token.span,
        }),
        Kind::Number => Err(not_a_name(token, may)),
        _ => Err(unexpected(token, may, None)),
    }
}

fn not_a_name(token: Token, may: &str) -> Problem {
    Problem {
        code: "not-a-name",
        span: token.span,
        found: format!("{} is not a name: it begins with a digit", named(token)),
        may: may.into(),
        mend: Some(format!("write 'n{}' here and wherever it is named", told(token.text))),
    }
}

pub fn the_end(line: &mut Line, may: &str) -> Result<(), Problem> {
    let token = line.take();
    match token.kind {
        Kind::End => Ok(()),
        _ => Err(unexpected(token, may, None)),
    }
}

/// From the start of one piece to the end of another.
pub fn across(from: Span, to: Span) -> Span {
    Span {
        start: from.start,
        end: to.end,
    }
}
