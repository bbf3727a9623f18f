//! What a picture has in it, before it is known where: nodes, a mark where the program begins and where it ends, and arrows between them.

use crate::caption::{caption, size, Piece, Row};
use crate::far::far;
use crate::findings::{targets, Findings};
use crate::lettering::{shortened, LONGEST};
use crate::look::{look, worst};
use crate::loose::below;
use crate::outline::{Outline, Size};
use crate::report::ends;
use std::fmt;
use veilbuzz::Class;

#[derive(Clone, Copy, Debug, PartialEq, Eq)]
pub enum Part {
    /// The mark before the entry.
    Start,
    /// A node of the chart.
    Node(usize),
    /// The mark behind a node where the program ends.
    End(usize),
    /// The name of the node that an arrow leads to, where it is far.
    Tag(usize, usize),
}

/// What Graphviz knows it by.
impl fmt::Display for Part {
    fn fmt(&self, out: &mut fmt::Formatter) -> fmt::Result {
        match self {
            Part::Start => write!(out, "start"),
            Part::Node(node) => write!(out, "n{node}"),
            Part::End(node) => write!(out, "end{node}"),
            Part::Tag(from, to) => write!(out, "n{from}to{to}"),
        }
    }
}

pub struct Item {
    pub part: Part,
    pub rows: Vec<Row>,
    pub outline: Outline,
    pub size: Size,
}

/// From one item to another, by their places.
pub struct Arrow {
    pub from: usize,
    pub to: usize,
    /// Whether a walk can go along it.
    pub reached: bool,
    /// How much it is to be straight.
    pub weight: usize,
}

pub struct Plan {
    pub items: Vec<Item>,
    pub arrows: Vec<Arrow>,
    /// Which item is to be below which, where no arrow says so.
    pub below: Vec<[usize; 2]>,
}

/// How wide a mark is.
const MARK: f64 = 13.0;

fn mark(part: Part) -> Item {
    Item {
        part,
        rows: vec![],
        outline: Outline::Pill,
        size: Size {
            width: MARK,
            height: MARK,
        },
    }
}

fn worded(part: Part, rows: Vec<Row>, outline: Outline) -> Item {
    Item {
        part,
        outline,
        size: size(&rows, outline),
        rows,
    }
}

/// The class that a node looks like.
pub fn class(findings: &Findings, node: usize) -> Class {
    worst(findings.analysis.classes[node])
}

impl Plan {
    pub fn of(findings: &Findings) -> Plan {
        let count = findings.known.nodes.len();
        let node = |node| {
            worded(
                Part::Node(node),
                caption(findings, node),
                look(class(findings, node)).outline,
            )
        };
        // node N is item N + 1
        let mut plan = Plan {
            items: [mark(Part::Start)].into_iter().chain((0..count).map(node)).collect(),
            arrows: vec![],
            below: vec![],
        };
        plan.lead(0, 1 + findings.known.header.entry, true);
        let far = far(findings);
        for from in 0..count {
            for to in targets(&findings.node(from).fields) {
                let item = match far.contains(&(from, to)) {
                    true => plan.add(tag(findings, from, to)),
                    false => 1 + to,
                };
                plan.lead(1 + from, item, findings.reached(from));
            }
        }
        for node in ends(findings) {
            let end = plan.add(mark(Part::End(node)));
            plan.lead(1 + node, end, true);
        }
        plan.below = below(plan.items.len(), &plan.arrows);
        plan
    }

    fn add(&mut self, item: Item) -> usize {
        self.items.push(item);
        self.items.len() - 1
    }

    fn lead(&mut self, from: usize, to: usize, reached: bool) {
        let weight = match (self.items[from].part, self.items[to].part) {
            // a mark is just above or below its node, a tag at its side
            (Part::Start, _) | (_, Part::End(_)) => 8,
            (_, Part::Tag(..)) => 1,
            _ => 4,
        };
        self.arrows.push(Arrow {
            from,
            to,
            reached,
            weight,
        });
    }
}

fn tag(findings: &Findings, from: usize, to: usize) -> Item {
    let name = shortened(findings.name(to), LONGEST);
    let row = vec![Piece::Plain(format!("to {name}"))];
    worded(Part::Tag(from, to), vec![row], Outline::Rounded)
}
