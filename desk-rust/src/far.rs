//! Arrows that lead too far to be laid out. Graphviz takes an arrow through each row of nodes between its two ends, and takes minutes where all
//! rows together are very many; nobody can follow such an arrow either. In its place stands a tag with the name of the node that it leads to.

use crate::findings::{targets, Findings};
use std::collections::BTreeSet;

pub type Arrow = (usize, usize);

/// So many rows all arrows together may go through: Graphviz takes seconds for as many.
pub const ROWS: usize = 6_000;

/// The arrows of a chart by the order of a walk that goes as deep as it can.
struct Walk {
    /// Those by which the walk first comes to a node: they stay, so that each node is under one that leads to it.
    first: BTreeSet<Arrow>,
    /// Those that lead back to where the walk has come through.
    back: BTreeSet<Arrow>,
    /// All others.
    other: Vec<Arrow>,
    /// The nodes, each before those that it leads to but for the arrows back.
    order: Vec<usize>,
}

impl Walk {
    fn of(findings: &Findings) -> Walk {
        let count = findings.known.nodes.len();
        let to = |node: usize| targets(&findings.node(node).fields).collect::<Vec<usize>>();
        let mut walk = Walk {
            first: BTreeSet::new(),
            back: BTreeSet::new(),
            other: vec![],
            order: vec![],
        };
        let (mut seen, mut open) = (vec![false; count], vec![false; count]);
        for root in [findings.known.header.entry].into_iter().chain(0..count) {
            if seen[root] {
                continue;
            }
            let mut way = vec![(root, 0)];
            (seen[root], open[root]) = (true, true);
            while let Some((node, next)) = way.last_mut() {
                let from = *node;
                let Some(target) = to(from).get(*next).copied() else {
                    open[from] = false;
                    walk.order.push(from);
                    way.pop();
                    continue;
                };
                *next += 1;
                if open[target] {
                    walk.back.insert((from, target));
                } else if seen[target] {
                    walk.other.push((from, target));
                } else {
                    (seen[target], open[target]) = (true, true);
                    walk.first.insert((from, target));
                    way.push((target, 0));
                }
            }
        }
        walk.order.reverse();
        walk
    }

    fn arrows(&self) -> impl Iterator<Item = Arrow> + '_ {
        let all = self.first.iter().chain(&self.back).chain(&self.other);
        all.copied()
    }

    /// The row of each node, as far down as the arrows that are laid out ask for.
    fn rows(&self, laid: &BTreeSet<Arrow>) -> Vec<usize> {
        let mut rows = vec![0; self.order.len()];
        let mut leads = vec![vec![]; self.order.len()];
        for (from, to) in laid.iter().filter(|arrow| !self.back.contains(arrow)) {
            leads[*from].push(*to);
        }
        for node in &self.order {
            for to in &leads[*node] {
                rows[*to] = rows[*to].max(rows[*node] + 1);
            }
        }
        // what nothing leads to is just above what it leads to
        for (node, to) in leads.iter().enumerate() {
            if rows[node] == 0 {
                rows[node] = to.iter().map(|to| rows[*to] - 1).min().unwrap_or(0);
            }
        }
        rows
    }
}

/// How many rows an arrow goes through.
fn length(rows: &[usize], (from, to): &Arrow) -> usize {
    rows[*from].abs_diff(rows[*to])
}

/// The arrows that are not laid out: none in all but the largest charts.
pub fn far(findings: &Findings) -> BTreeSet<Arrow> {
    let walk = Walk::of(findings);
    let mut laid: BTreeSet<Arrow> = walk.arrows().collect();
    let mut longest = walk.order.len();
    loop {
        let rows = walk.rows(&laid);
        let all: usize = laid.iter().map(|arrow| length(&rows, arrow)).sum();
        // with the first arrows alone, each goes through one row
        if all <= ROWS || longest == 0 {
            break;
        }
        longest /= 2;
        laid.retain(|arrow| walk.first.contains(arrow) || length(&rows, arrow) < longest);
    }
    walk.arrows().filter(|arrow| !laid.contains(arrow)).collect()
}
