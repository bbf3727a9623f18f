//! The line of a node: what it does, where it leads, how often a walk comes there.

use crate::astray::{astray, not_doing, third};
use crate::draft::{Base, Draft, Name, Node, Reference, VisitsSaid};
use crate::expect::{a_name, a_number, a_short_number, across, unexpected};
use crate::lexer::{Kind, Line, Token};
use crate::number::{address, told, Placed};
use crate::parse::twice;
use crate::problem::Problem;
use veilbuzz::NODES;

const ADDRESS_MAY: &str = "an address: a number, a name that an 'at' line gives, or a name '+' a number";
const TARGET_MAY: &str = "the name of a node; where the program ends, no arrow";

/// Reads the rest of a node's line. The node is kept by its name whatever faults the line has: others lead to it.
pub fn node<'a>(draft: &mut Draft<'a>, name: Name<'a>, rest: &mut Line<'a>) -> Result<(), Problem> {
    draft.count += 1;
    // one too many is kept, to be told of; the others are only counted
    if draft.nodes.len() > NODES {
        return Ok(());
    }
    let mut said = Node {
        name,
        reference: None,
        arrows: [None; 2],
        visits: None,
    };
    let read = doing(&mut said, rest).and_then(|()| leading(&mut said, rest));
    let number = draft.nodes.len();
    draft.nodes.push(said);
    let before = *draft.numbers.entry(name.value).or_insert(number);
    if before != number {
        return Err(Problem {
            code: "node-twice",
            span: name.span,
            found: format!("'{}' is the name of a node already", told(name.value)),
            may: "a name that no other node has".into(),
            mend: Some("give one of the two another name, and look which of them each arrow is to lead to".into()),
        });
    }
    read
}

fn doing<'a>(said: &mut Node<'a>, rest: &mut Line<'a>) -> Result<(), Problem> {
    let word = rest.peek();
    match (word.kind, word.text) {
        (Kind::Word, "step") => {
            rest.take();
        }
        (Kind::Word, "read" | "write") => {
            rest.take();
            said.reference = Some(reference(word.text == "write", rest)?);
        }
        (Kind::Word, "visits") | (Kind::Arrow | Kind::End, _) => {}
        _ => return Err(not_doing(said.name, word)),
    }
    Ok(())
}

fn reference<'a>(write: bool, rest: &mut Line<'a>) -> Result<Reference<'a>, Problem> {
    let token = rest.take();
    let base = match token.kind {
        Kind::Word => Base::Named(Name {
            value: token.text,
            span: token.span,
        }),
        Kind::Number => Base::Number(address(token)?.value),
        _ => return Err(unexpected(token, ADDRESS_MAY, None)),
    };
    let mut span = token.span;
    let mut offset = None;
    if rest.peek().kind == Kind::Plus {
        rest.take();
        let more = more(token, rest)?;
        span = across(span, more.span);
        offset = Some(more.value);
    }
    let mut size = None;
    if rest.peek().text == "size" {
        rest.take();
        size = Some(a_number(rest, "how many bytes it reads or writes, a number")?);
    }
    Ok(Reference {
        write,
        base,
        offset,
        span,
        size,
    })
}

/// How many bytes further on than an address.
fn more(base: Token, rest: &mut Line) -> Result<Placed<u64>, Problem> {
    let next = rest.peek();
    let problem = match a_number(rest, "how many bytes further on, a number") {
        Err(problem) if base.kind == Kind::Number && next.kind == Kind::Word => problem,
        read => return read,
    };
    Err(Problem {
        mend: Some(format!("write '{} + {}'", told(next.text), told(base.text))),
        ..problem
    })
}

fn leading<'a>(said: &mut Node<'a>, rest: &mut Line<'a>) -> Result<(), Problem> {
    loop {
        let token = rest.take();
        match (token.kind, token.text) {
            (Kind::End, _) => return Ok(()),
            (Kind::Arrow, _) if said.arrows[0].is_none() => arrows(said, rest)?,
            (Kind::Word, "visits") if said.visits.is_none() => said.visits = Some(visits(token, rest)?),
            (Kind::Word, "visits") => return Err(twice("visits", token.span)),
            _ => return Err(astray(said, token)),
        }
    }
}

fn arrows<'a>(said: &mut Node<'a>, rest: &mut Line<'a>) -> Result<(), Problem> {
    said.arrows[0] = Some(a_name(rest, TARGET_MAY)?);
    if rest.peek().kind != Kind::Comma {
        return Ok(());
    }
    rest.take();
    said.arrows[1] = Some(a_name(rest, TARGET_MAY)?);
    match rest.peek() {
        comma if comma.kind == Kind::Comma => Err(third(said.name, comma.span)),
        _ => Ok(()),
    }
}

fn visits(word: Token, rest: &mut Line) -> Result<VisitsSaid, Problem> {
    const MAY: &str = "how often a walk comes here: a number, or a least and a most, as 0..10";
    let floor = a_short_number(rest, MAY)?;
    let mut ceiling: Placed<u16> = floor;
    match rest.peek() {
        next if next.kind == Kind::Dots => {
            rest.take();
            ceiling = a_short_number(rest, "the most that a walk comes here, a number")?;
        }
        next if next.text == "-" || next.kind == Kind::Number => {
            let may = "'..' and the most, '->' or the end of the line";
            let mend = format!("write 'visits {}..' and the most", floor.value);
            return Err(unexpected(next, may, Some(mend)));
        }
        _ => {}
    }
    Ok(VisitsSaid {
        span: across(word.span, ceiling.span),
        floor: floor.value,
        ceiling: ceiling.value,
    })
}
