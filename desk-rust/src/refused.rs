//! A refusal of the proved writer, told at the line of the text that it comes from.

use crate::draft::{Draft, Node};
use crate::number::told;
use crate::problem::Problem;
use crate::source::Span;
use crate::words::{address, counted};
use veilbuzz::{Fields, Refusal, BLOCKS, NODES};

/// What refusals 5, 9 and 10 mean in a text. The others cannot be: the numbers of the cache have been asked for one by one, a name is a
/// node's that there is, and the lists are as long as there are nodes.
pub fn told_at(refusal: Refusal, draft: &Draft, fields: &[Fields], end: Span) -> Problem {
    match (refusal.number, draft.nodes.get(refusal.place)) {
        (5, _) if draft.nodes.len() > NODES => nodes(draft),
        (9, Some(node)) => record(node, fields[refusal.place]),
        (10, Some(node)) => Problem {
            code: "refused-10",
            span: place(node),
            found: "this reference touches one line of memory more than a chart can have".into(),
            may: format!("references to {BLOCKS} blocks in all, which are lines of memory"),
            mend: Some("'./desk refusal 10' says what can be done".into()),
        },
        _ => Problem {
            code: "refused",
            span: end,
            found: refusal.to_string(),
            may: "what the rules allow".into(),
            mend: Some(format!("'./desk refusal {}' says more", refusal.number)),
        },
    }
}

fn nodes(draft: &Draft) -> Problem {
    Problem {
        code: "refused-5",
        span: draft.nodes[NODES].name.span,
        found: format!("this is one node too many; there are {} in all", draft.count),
        may: format!("1 to {NODES} lines of nodes, 'NAME: ..'"),
        mend: Some("'./desk refusal 5' says what can be done".into()),
    }
}

fn record(node: &Node, fields: Fields) -> Problem {
    let name = told(node.name.value);
    match node.arrows[1] {
        Some(second) if fields.first == fields.second => Problem {
            code: "refused-9",
            span: second.span,
            found: format!("both arrows of '{name}' lead to '{}'", told(second.value)),
            may: "a node that the first arrow does not lead to".into(),
            mend: Some("leave the second arrow out, or name the other node".into()),
        },
        _ => Problem {
            code: "refused-9",
            span: place(node),
            found: format!(
                "a reference to {} from {} on ends past the last address, 0xFFFFFFFF",
                counted(1 << fields.size, "byte"),
                address(fields.address)
            ),
            may: "an address of 32 bits from which all bytes of the reference are addresses of 32 bits".into(),
            mend: None,
        },
    }
}

/// Where a node's reference stands, or else its name.
fn place(node: &Node) -> Span {
    node.reference
        .as_ref()
        .map_or(node.name.span, |reference| reference.span)
}
