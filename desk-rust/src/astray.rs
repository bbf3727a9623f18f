//! What is said of what does not fit in the line of a node, with what may be meant.

use crate::draft::{Name, Node, Reference};
use crate::expect::unexpected_word;
use crate::lexer::{Kind, Token};
use crate::number::told;
use crate::parse::LINES;
use crate::problem::Problem;
use crate::source::Span;

const WORDS: [&str; 4] = ["step", "read", "write", "visits"];

const FIRST_MAY: &str = "'step', 'read', 'write', '->', 'visits' or the end of the line";

/// That a node does nothing of the kind.
pub fn not_doing(name: Name, word: Token) -> Problem {
    let problem = unexpected_word(word, &WORDS, FIRST_MAY);
    let mend = match LINES.contains(&name.value) {
        true => Some("leave the ':' out, if this is no node".into()),
        false => problem.mend.or_else(|| arrow_meant(word)),
    };
    Problem { mend, ..problem }
}

/// What may be meant by a sign behind an address.
fn offset_meant(said: &Node, token: Token) -> Option<String> {
    let behind = matches!(
        &said.reference,
        Some(Reference {
            offset: None,
            size: None,
            ..
        })
    );
    match token.text {
        "[" if behind => Some("write '+' and how many bytes further on, as 'NAME + 32'".into()),
        "-" if behind => Some("there is no '-': name the lower address; or write '->', if an arrow is meant".into()),
        _ => None,
    }
}

/// A sign that may be meant for an arrow.
fn arrow_meant(token: Token) -> Option<String> {
    let is_meant = matches!(token.text, "-" | "=" | ">" | "→" | "⇒");
    is_meant.then(|| "write '->', if an arrow is meant".into())
}

/// That a token stands where the arrows or the visits could, or what else is still to be said.
pub fn astray(said: &Node, token: Token) -> Problem {
    let (first, second) = (said.arrows[0].is_some(), said.arrows[1].is_some());
    let (words, may): (&[&str], _) = match (first, said.visits.is_some(), &said.reference) {
        (false, false, Some(Reference { size: None, offset, .. })) => (
            &["size", "visits"],
            match offset {
                None => "'+', 'size', '->', 'visits' or the end of the line",
                Some(_) => "'size', '->', 'visits' or the end of the line",
            },
        ),
        (false, false, _) => (&["visits"], "'->', 'visits' or the end of the line"),
        (true, false, _) if second => (&["visits"], "'visits' or the end of the line"),
        (true, false, _) => (&["visits"], "',' and a second target, 'visits' or the end of the line"),
        (false, true, _) => (&[], "'->' or the end of the line"),
        (true, true, _) => (&[], "the end of the line"),
    };
    let problem = unexpected_word(token, words, may);
    let mend = match (token.kind, token.text) {
        (Kind::Word, "step" | "read" | "write") => Some("what a node does stands before all else".to_string()),
        (Kind::Number, text) if words.contains(&"size") => {
            Some(format!("write 'size {}', if it is the size", told(text)))
        }
        _ if problem.mend.is_some() => problem.mend,
        _ if !first => offset_meant(said, token).or_else(|| arrow_meant(token)),
        _ if second => None,
        (Kind::Arrow, _) => Some("write ',' before the second target".to_string()),
        (Kind::Word, "and" | "or") => Some("write ','".to_string()),
        (Kind::Word, text) => Some(format!("write ', {}', if it is the second target", told(text))),
        _ => None,
    };
    Problem { mend, ..problem }
}

/// That a node has more arrows than there can be.
pub fn third(name: Name, span: Span) -> Problem {
    let name = told(name.value);
    Problem {
        code: "third-arrow",
        span,
        found: format!("a third arrow leads out of '{name}'"),
        may: "one arrow or two".into(),
        mend: Some(format!(
            "put a step in between: '-> .., {name}_else' here, and a line '{name}_else: -> .., ..' for the other targets"
        )),
    }
}
