//! From a text to a chart. The proved writer makes the bytes, and the proved reader reads them back before they are used.

use crate::asked::STEP;
use crate::draft::{Base, Draft};
use crate::known::{Known, Node, Text, Visits};
use crate::parse::parse;
use crate::parse_fact::facts;
use crate::problem::Problems;
use crate::refused::told_at;
use crate::resolve::resolve;
use crate::source::{Source, Span};
use crate::trouble::Trouble;
use veilbuzz::{chart_of, fields_of, Costs, Fields, Heading};

/// The chart that a text says, or all that is wrong with it.
pub fn made(source: Source) -> Result<Known, Trouble> {
    drawn(&source).map_err(|problems| Trouble::Text(source, problems))
}

fn drawn(source: &Source) -> Result<Known, Problems> {
    let mut draft = parse(&source.text);
    let mut problems = std::mem::take(&mut draft.problems);
    if problems.are_too_many() {
        return Err(problems);
    }
    let end = source.end();
    let given = resolve(&draft, end, &mut problems);
    let facts = facts(&draft, &mut problems);
    let (Some((heading, fields)), true) = (given, problems.is_empty()) else {
        return Err(problems);
    };
    let chart = written(&draft, heading, fields.clone(), end)?;
    let (header, read) = fields_of(&chart).expect("the reader accepts what the writer wrote");
    assert!(
        heading == header.into() && fields == read,
        "a chart reads back as it was given"
    );
    let nodes = draft.nodes.iter().zip(read).map(|(said, fields)| Node {
        name: said.name.value.to_string(),
        fields,
        address: said.reference.as_ref().and_then(|reference| match reference.base {
            Base::Named(_) => Some(source.words(reference.span)),
            Base::Number(_) => None,
        }),
        visits: said.visits.as_ref().map(|visits| Visits {
            floor: visits.floor,
            ceiling: visits.ceiling,
        }),
    });
    Ok(Known {
        file: source.file.clone(),
        chart,
        header,
        nodes: nodes.collect(),
        costs: draft.costs.as_ref().map(|line| Costs {
            hit: line.hit,
            miss: line.miss,
        }),
        clock: draft.clock.as_ref().map(|line| line.clock),
        limits: draft.deadline.as_ref().map(|line| line.limits),
        facts,
        text: Some(said(source, &draft)),
    })
}

/// The chart's bytes, or each node that the writer refuses: the next is looked for with a step in the place of the last.
fn written(draft: &Draft, heading: Heading, mut fields: Vec<Fields>, end: Span) -> Result<Vec<u8>, Problems> {
    let mut problems = Problems::default();
    loop {
        match chart_of(heading, &fields) {
            Ok(chart) if problems.is_empty() => return Ok(chart),
            Ok(_) => return Err(problems),
            Err(refusal) => {
                problems.push(told_at(refusal, draft, &fields, end));
                if refusal.number != 9 || problems.are_too_many() {
                    return Err(problems);
                }
                fields[refusal.place] = STEP;
            }
        }
    }
}

fn said(source: &Source, draft: &Draft) -> Text {
    let visits = |node: &crate::draft::Node| node.visits.as_ref().map(|visits| visits.span);
    Text {
        source: source.clone(),
        costs: draft.costs.as_ref().map(|line| line.span),
        clock: draft.clock.as_ref().map(|line| line.span),
        deadline: draft.deadline.as_ref().map(|line| line.span),
        visits: draft.nodes.iter().map(visits).collect(),
    }
}
