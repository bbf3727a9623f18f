//! A chart with a few nodes more, whose analysis tells what that of the chart itself does not: the ages that come by one arrow, and those
//! between the two touches of a node. On arrival at the other nodes the ages are the same in both.

use crate::asked::STEP;
use crate::known::Known;
use crate::reference::last_byte;
use veilbuzz::{chart_of, Analysis, Fields, Heading, Refusal, NODES};

/// Where a walk is before it comes to a node.
#[derive(Clone, Copy, Debug, PartialEq, Eq)]
pub enum Origin {
    Start,
    Node(usize),
}

pub struct Changed {
    heading: Heading,
    nodes: Vec<Fields>,
}

/// How many nodes can be added to a chart.
pub fn spare(known: &Known) -> usize {
    NODES.saturating_sub(known.nodes.len())
}

impl Changed {
    pub fn of(known: &Known) -> Changed {
        Changed {
            heading: known.header.into(),
            nodes: known.nodes.iter().map(|node| node.fields).collect(),
        }
    }

    pub fn analysis(&self) -> Result<Analysis, Refusal> {
        let nodes = self.nodes.len() as u64;
        let chart = chart_of(Heading { nodes, ..self.heading }, &self.nodes)?;
        Analysis::of(&chart)
    }

    fn add(&mut self, node: Fields) -> usize {
        self.nodes.push(node);
        self.nodes.len() - 1
    }

    /// Lets what comes to a node from one origin, which has an arrow to it, go by a new bare step, and gives that step's number: on arrival
    /// there the ages are those that come from this origin alone.
    pub fn step_before(&mut self, node: usize, origin: Origin) -> usize {
        let step = self.add(Fields {
            outs: 1,
            first: node as u64,
            ..STEP
        });
        match origin {
            Origin::Start => self.heading.entry = step as u64,
            Origin::Node(from) => {
                let from = &mut self.nodes[from];
                let arrow = if from.first == node as u64 {
                    &mut from.first
                } else {
                    &mut from.second
                };
                *arrow = step as u64;
            }
        }
        step
    }

    /// Makes two nodes of one that touches two blocks, a touch each, and gives the number of the second: on arrival there the ages are those
    /// between the two touches.
    pub fn split(&mut self, node: usize) -> usize {
        let whole = self.nodes[node];
        let second = self.add(Fields {
            address: last_byte(&whole),
            size: 0,
            ..whole
        });
        self.nodes[node] = Fields {
            size: 0,
            outs: 1,
            first: second as u64,
            second: 0,
            ..whole
        };
        second
    }
}
