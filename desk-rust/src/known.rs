//! A chart as the desk knows it, whether it came as text or as bytes. The proved reader has accepted it.

use crate::fact::Saying;
use crate::source::{Source, Span};
use crate::time::Time;
use veilbuzz::{fields_of, Costs, Fields, Header, Refusal};

pub struct Known {
    /// The file's name, or what stands for it.
    pub file: String,
    pub chart: Vec<u8>,
    pub header: Header,
    /// In the chart's order.
    pub nodes: Vec<Node>,
    pub costs: Option<Costs>,
    pub clock: Option<Clock>,
    pub limits: Option<Limits>,
    /// What lines `fact` and `loop` say, in the order of the text.
    pub facts: Vec<Saying>,
    /// The text that it came from, with the places in it that a refusal may have to be told at.
    pub text: Option<Text>,
}

/// A node: its name, what the proved reader tells of it, and what a text says beside that.
pub struct Node {
    pub name: String,
    pub fields: Fields,
    /// The address by its name, as `limit + 0x10`, where a text has a name for it.
    pub address: Option<String>,
    pub visits: Option<Visits>,
}

/// How often a walk comes to a node, at least and at most.
#[derive(Clone, Copy, Debug, PartialEq, Eq)]
pub struct Visits {
    pub floor: u16,
    pub ceiling: u16,
}

/// How long a cycle takes, and what is added once (rule 17.1).
#[derive(Clone, Copy, Debug, PartialEq, Eq)]
pub struct Clock {
    pub period: Time,
    pub overhead: Time,
}

/// A deadline: a latest time, and an earliest one if it is a window (rule 17.2).
#[derive(Clone, Copy, Debug, PartialEq, Eq)]
pub struct Limits {
    pub earliest: Option<Time>,
    pub latest: Time,
}

/// Where a text says what a chart's bytes do not have.
pub struct Text {
    pub source: Source,
    /// The numbers of the line of costs.
    pub costs: Option<Span>,
    /// The line of the clock.
    pub clock: Option<Span>,
    /// The line of the deadline.
    pub deadline: Option<Span>,
    /// Of each node, its visits.
    pub visits: Vec<Option<Span>>,
}

impl Known {
    /// A chart that came as bytes: its nodes are called n0, n1 and so on.
    pub fn of_chart(file: &str, chart: Vec<u8>) -> Result<Known, Refusal> {
        let (header, fields) = fields_of(&chart)?;
        let node = |(number, fields)| Node {
            name: format!("n{number}"),
            fields,
            address: None,
            visits: None,
        };
        Ok(Known {
            file: file.to_string(),
            chart,
            header,
            nodes: fields.into_iter().enumerate().map(node).collect(),
            costs: None,
            clock: None,
            limits: None,
            facts: vec![],
            text: None,
        })
    }

    /// The number of the node of a name.
    pub fn named(&self, name: &str) -> Option<usize> {
        self.nodes.iter().position(|node| node.name == name)
    }
}
