//! The nodes of two charts, matched by their names, and which of them have other classes.

use crate::known::Known;
use std::collections::HashMap;
use veilbuzz::{Class, TOUCHES};

/// A chart with the classes of its nodes.
#[derive(Clone, Copy)]
pub struct Classed<'a> {
    pub known: &'a Known,
    pub classes: &'a [[Class; TOUCHES]],
}

/// Nodes by their numbers, in the order of the one chart.
pub struct Matched {
    /// Those of other classes, in the one chart and in the other.
    pub differ: Vec<[usize; 2]>,
    /// How many have the same classes in both.
    pub same: usize,
    pub only_in_one: Vec<usize>,
    pub only_in_other: Vec<usize>,
}

pub fn matched(one: Classed, other: Classed) -> Matched {
    let nodes = other.known.nodes.iter().enumerate();
    let mut numbers: HashMap<&str, usize> = nodes.map(|(number, node)| (node.name.as_str(), number)).collect();
    let mut matched = Matched {
        differ: vec![],
        same: 0,
        only_in_one: vec![],
        only_in_other: vec![],
    };
    for (number, node) in one.known.nodes.iter().enumerate() {
        match numbers.remove(node.name.as_str()) {
            None => matched.only_in_one.push(number),
            Some(there) if one.classes[number] == other.classes[there] => matched.same += 1,
            Some(there) => matched.differ.push([number, there]),
        }
    }
    matched.only_in_other = numbers.into_values().collect();
    matched.only_in_other.sort_unstable();
    matched
}

impl Matched {
    /// Whether both charts have the same nodes, with the same classes.
    pub fn are_same(&self) -> bool {
        self.differ.is_empty() && self.only_in_one.is_empty() && self.only_in_other.is_empty()
    }
}
