//! A chart as the program of one side has it: nodes that walks come to, their arrows, and what one visit counts (rule 18.3).

use crate::findings::{targets, Findings};
use veilbuzz::{Class, Costs, Side};

pub struct Flow {
    pub entry: usize,
    /// Of each node that a walk comes to, where its arrows lead; of the others nothing.
    pub arrows: Vec<Option<Vec<usize>>>,
    /// What a visit of each node costs; below 0 for the low side.
    pub costs: Vec<i64>,
}

impl Flow {
    pub fn of(findings: &Findings, costs: Costs, side: Side) -> Flow {
        let nodes = 0..findings.known.nodes.len();
        let arrows = |node: usize| {
            findings
                .reached(node)
                .then(|| targets(&findings.node(node).fields).collect())
        };
        let cost = |node: usize| -> i64 {
            let classes = findings.analysis.classes[node];
            classes.map(|class| touch(class, costs, side)).iter().sum()
        };
        Flow {
            entry: findings.known.header.entry,
            arrows: nodes.clone().map(arrows).collect(),
            costs: nodes.map(cost).collect(),
        }
    }

    /// The nodes that walks come to, in their order.
    pub fn reached(&self) -> impl Iterator<Item = usize> + '_ {
        (0..self.arrows.len()).filter(|node| self.arrows[*node].is_some())
    }

    /// The arrows between them.
    pub fn arrows(&self) -> impl Iterator<Item = (usize, usize)> + '_ {
        let from = self.arrows.iter().enumerate();
        from.flat_map(|(from, to)| to.iter().flatten().map(move |to| (from, *to)))
    }
}

/// What one touch counts. It only has to be right for the certificate to pass: the proved function works it out for itself.
fn touch(class: Class, Costs { hit, miss }: Costs, side: Side) -> i64 {
    let [hit, miss] = [hit, miss].map(i64::from);
    match (side, class) {
        (_, Class::Unreached | Class::None) => 0,
        (Side::High, Class::Hit | Class::Kept) => hit,
        (Side::High, Class::Miss | Class::Unsure) => miss,
        (Side::Low, Class::Miss) => -miss,
        (Side::Low, Class::Hit | Class::Kept | Class::Unsure) => -hit,
    }
}
