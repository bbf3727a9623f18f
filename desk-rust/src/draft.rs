//! What a text says, line by line, before its names are looked up and before the writer is asked.

use crate::known::{Clock, Limits};
use crate::lexer::{Line, Token};
use crate::number::Placed;
use crate::problem::Problems;
use crate::source::Span;
use std::collections::HashMap;
use veilbuzz::Start;

/// A name as it is used, or as it is given.
pub type Name<'a> = Placed<&'a str>;

pub struct Draft<'a> {
    pub cache: Option<Cache>,
    pub costs: Option<CostLine>,
    pub clock: Option<ClockLine>,
    pub deadline: Option<DeadlineLine>,
    /// What the line of the entry says, if there is one: a name, if it can be read.
    pub entry: Option<Option<Name<'a>>>,
    /// The names of addresses. Where a line has a fault, its name is known, and no number.
    pub addresses: HashMap<&'a str, Option<u64>>,
    /// The first nodes: one more than a chart can have, at most.
    pub nodes: Vec<Node<'a>>,
    /// How many lines of nodes there are in all.
    pub count: usize,
    /// The numbers of those nodes, by name.
    pub numbers: HashMap<&'a str, usize>,
    /// The first lines of facts, each by its word and what follows it: one more than a text can have, at most.
    pub facts: Vec<(Token<'a>, Line<'a>)>,
    /// How many lines of facts there are in all.
    pub fact_count: usize,
    pub problems: Problems,
}

/// The line of the cache: what it says of each, if it says something that can be read.
#[derive(Default)]
pub struct Cache {
    pub line: Option<Placed<u64>>,
    pub sets: Option<Placed<u64>>,
    pub ways: Option<Placed<u64>>,
    pub start: Option<Start>,
}

pub struct CostLine {
    pub span: Span,
    pub hit: u16,
    pub miss: u16,
}

pub struct ClockLine {
    pub span: Span,
    pub clock: Clock,
}

pub struct DeadlineLine {
    pub span: Span,
    pub limits: Limits,
}

pub struct Node<'a> {
    pub name: Name<'a>,
    pub reference: Option<Reference<'a>>,
    pub arrows: [Option<Name<'a>>; 2],
    pub visits: Option<VisitsSaid>,
}

pub struct Reference<'a> {
    pub write: bool,
    pub base: Base<'a>,
    pub offset: Option<u64>,
    /// Of the address, all of it.
    pub span: Span,
    pub size: Option<Placed<u64>>,
}

#[derive(Clone, Copy)]
pub enum Base<'a> {
    Named(Name<'a>),
    Number(u64),
}

pub struct VisitsSaid {
    pub span: Span,
    pub floor: u16,
    pub ceiling: u16,
}

impl Draft<'_> {
    pub fn new<'a>() -> Draft<'a> {
        Draft {
            cache: None,
            costs: None,
            clock: None,
            deadline: None,
            entry: None,
            addresses: HashMap::new(),
            nodes: vec![],
            count: 0,
            numbers: HashMap::new(),
            facts: vec![],
            fact_count: 0,
            problems: Problems::default(),
        }
    }
}
