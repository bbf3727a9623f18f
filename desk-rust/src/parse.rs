//! From a text to a draft. A line has one fault at most told of it; the next line is read whatever stood in this one.

use crate::draft::{Cache, Draft, Name};
use crate::expect::{a_name, an_address, named, the_end, unexpected};
use crate::fact::FACTS;
use crate::lexer::{lines, Kind, Line, Token};
use crate::near::nearest;
use crate::number::told;
use crate::parse_cache::{cache, costs};
use crate::parse_clock::{clock, deadline};
use crate::parse_node::node;
use crate::problem::Problem;
use crate::source::Span;

/// What a line that is no node's begins with.
pub const LINES: [&str; 8] = ["cache", "cost", "clock", "deadline", "entry", "at", "fact", "loop"];

const LINE_MAY: &str = "'cache', 'cost', 'clock', 'deadline', 'entry', 'at', 'fact', 'loop', or a node's name and ':'";

pub fn parse(text: &str) -> Draft<'_> {
    let mut draft = Draft::new();
    for whole in lines(text) {
        if let Err(problem) = line(&mut draft, whole) {
            draft.problems.push(problem);
        }
        if draft.problems.are_too_many() {
            break;
        }
    }
    draft
}

fn line<'a>(draft: &mut Draft<'a>, mut rest: Line<'a>) -> Result<(), Problem> {
    let token = rest.take();
    if token.kind == Kind::End {
        return Ok(());
    }
    if token.kind == Kind::Word && rest.peek().kind == Kind::Colon {
        rest.take();
        let name = Name {
            value: token.text,
            span: token.span,
        };
        return node(draft, name, &mut rest);
    }
    match (token.kind, token.text) {
        (Kind::Word, "cache") => cache(draft, token.span, &mut rest),
        (Kind::Word, "cost") => costs(draft, token.span, &mut rest),
        (Kind::Word, "clock") => clock(draft, token.span, &mut rest),
        (Kind::Word, "deadline") => deadline(draft, token.span, &mut rest),
        (Kind::Word, "entry") => entry(draft, token.span, &mut rest),
        (Kind::Word, "at") => address(draft, &mut rest),
        (Kind::Word, "fact" | "loop") => {
            fact(draft, token, rest);
            Ok(())
        }
        _ => {
            let meant = meant(token);
            match meant {
                // it is there, if mistyped: it is not to be told as missing too
                Some("cache") => drop(draft.cache.get_or_insert(Cache::default())),
                Some("entry") => drop(draft.entry.get_or_insert(None)),
                _ => {}
            }
            Err(no_line(token, meant, rest.peek()))
        }
    }
}

/// The word that a line may be meant to begin with.
fn meant(token: Token) -> Option<&'static str> {
    match token.kind {
        Kind::Word => nearest(token.text, LINES),
        _ => None,
    }
}

/// That no line begins so: a mistyped word, a node without its colon, digits of a chart, or something else.
fn no_line(token: Token, meant: Option<&str>, next: Token) -> Problem {
    let node = || format!("write '{}:', if it is a node", told(token.text));
    let mend = match token.kind {
        Kind::Word => match (meant, next.kind, next.text) {
            (_, Kind::Arrow, _) | (_, Kind::Word, "step" | "read" | "write" | "visits") => Some(node()),
            (Some(word), _, _) => Some(format!("write '{word}'")),
            (None, _, _) => Some(node()),
        },
        Kind::Number if next.kind == Kind::Colon => Some(format!("write 'n{}:', if it is a node", told(token.text))),
        Kind::Number => {
            Some("docs/HEX.md turns a chart in hexadecimal digits into one in words, if this is one".into())
        }
        Kind::Other if token.text.chars().all(char::is_control) => {
            Some("a chart of bytes has 01 as its first, if this is one".into())
        }
        _ => None,
    };
    Problem {
        code: "no-such-line",
        span: token.span,
        found: format!("no line begins with {}", named(token)),
        may: LINE_MAY.into(),
        mend,
    }
}

/// That a line is there for the second time.
pub fn twice(what: &str, span: Span) -> Problem {
    Problem {
        code: "twice",
        span,
        found: format!("'{what}' is said a second time"),
        may: "what has not been said yet".into(),
        mend: Some("take out one of the two".into()),
    }
}

fn entry<'a>(draft: &mut Draft<'a>, span: Span, rest: &mut Line<'a>) -> Result<(), Problem> {
    if draft.entry.is_some() {
        return Err(twice("entry", span));
    }
    draft.entry = Some(None);
    draft.entry = Some(Some(a_name(rest, "the name of the node that the program begins at")?));
    the_end(rest, "the end of the line: there is one entry")
}

/// Keeps the line of a fact: what it says is read once all nodes are known, since it may stand above them.
fn fact<'a>(draft: &mut Draft<'a>, word: Token<'a>, rest: Line<'a>) {
    draft.fact_count += 1;
    // one too many is kept, to be told of; the others are only counted
    if draft.facts.len() <= FACTS {
        draft.facts.push((word, rest));
    }
}

fn address<'a>(draft: &mut Draft<'a>, rest: &mut Line<'a>) -> Result<(), Problem> {
    let name = a_name(rest, "the name that an address is to have")?;
    if draft.addresses.insert(name.value, None).is_some() {
        return Err(Problem {
            code: "address-twice",
            span: name.span,
            found: format!("'{}' is the name of an address already", told(name.value)),
            may: "a name that no other address has".into(),
            mend: Some("give one of the two another name, or take it out".into()),
        });
    }
    let sign = rest.take();
    if sign.kind != Kind::Equals {
        let mend = format!("write 'at {} = ADDRESS'", told(name.value));
        return Err(unexpected(sign, "'='", Some(mend)));
    }
    let value = an_address(rest, "an address as a number, as 0x20000080")?;
    if u32::try_from(value.value).is_err() {
        return Err(Problem {
            code: "number-past-its-width",
            span: value.span,
            found: format!("0x{:X} is too large: addresses are 32-bit numbers", value.value),
            may: "an address from 0 to 0xFFFFFFFF".into(),
            mend: None,
        });
    }
    draft.addresses.insert(name.value, Some(value.value));
    the_end(rest, "the end of the line: an address is one number")
}
