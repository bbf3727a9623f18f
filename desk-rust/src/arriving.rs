//! The ages that come to a node from each place that a walk can come from.

use crate::ages::Ages;
use crate::changed::{spare, Changed, Origin};
use crate::findings::Findings;
use veilbuzz::Refusal;

pub struct Arrival {
    pub origin: Origin,
    /// Of the block of each touch of the node, on arrival.
    pub ages: Vec<Ages>,
}

/// Where a walk can be before it comes to a node: at the start, at a node that a walk comes to.
fn origins(findings: &Findings, node: usize) -> Vec<Origin> {
    let start = findings.is_entry(node).then_some(Origin::Start);
    let sources = findings
        .sources(node)
        .filter(|from| findings.reached(*from))
        .map(Origin::Node);
    start.into_iter().chain(sources).collect()
}

/// The node at which what comes to a node meets: itself, or the first of the bare steps in a row that alone lead to it. A bare step hands on
/// all ages as they are.
pub fn meeting(findings: &Findings, node: usize) -> usize {
    let mut at = node;
    for _ in 0..findings.known.nodes.len() {
        match origins(findings, at).as_slice() {
            [Origin::Node(from)] if findings.touches[*from].is_empty() => at = *from,
            _ => break,
        }
    }
    at
}

/// What comes from each origin to the node where it meets on its way to a node; `None` where the chart has no room for a step more.
pub fn arrivals(findings: &Findings, node: usize, meeting: usize) -> Result<Option<Vec<Arrival>>, Refusal> {
    let room = spare(findings.known);
    if room == 0 {
        return Ok(None);
    }
    let mut arrivals = vec![];
    for some in origins(findings, meeting).chunks(room) {
        arrivals.extend(arrivals_of(findings, node, meeting, some)?);
    }
    Ok(Some(arrivals))
}

/// The same of some origins, for which there is room.
fn arrivals_of(findings: &Findings, node: usize, meeting: usize, origins: &[Origin]) -> Result<Vec<Arrival>, Refusal> {
    let mut changed = Changed::of(findings.known);
    let steps: Vec<usize> = origins
        .iter()
        .map(|origin| changed.step_before(meeting, *origin))
        .collect();
    let analysis = changed.analysis()?;
    let arrival = |(origin, step): (&Origin, usize)| Arrival {
        origin: *origin,
        ages: findings.touches[node]
            .iter()
            .map(|touch| Ages::of(&analysis, step, touch.block))
            .collect(),
    };
    Ok(origins.iter().zip(steps).map(arrival).collect())
}

/// The ages of the second touch's block after the first touch; `None` where the chart has no room for a node more.
pub fn between(findings: &Findings, node: usize, block: u32) -> Result<Option<Ages>, Refusal> {
    if spare(findings.known) == 0 {
        return Ok(None);
    }
    let mut changed = Changed::of(findings.known);
    let second = changed.split(node);
    Ok(Some(Ages::of(&changed.analysis()?, second, block)))
}
