//! Certificates, and whether one holds.

use crate::facts::{Fact, Facts};
use crate::grounds::{Ground, Grounds};

/// A multiplier for each fact, a potential for each node, and a denominator (rule 18.2).
#[derive(Clone, Copy, Debug)]
pub struct Certificate<'a> {
    pub multipliers: &'a [i64],
    pub potentials: &'a [i64],
    pub denominator: u64,
}

/// For which of the two bounds it is.
#[derive(Clone, Copy, Debug, PartialEq, Eq)]
pub enum Side {
    High,
    Low,
}

impl Side {
    /// The side that a number stands for; nothing for a number that stands for none.
    pub fn of(number: u64) -> Option<Side> {
        match number {
            0 => Some(Side::High),
            1 => Some(Side::Low),
            _ => None,
        }
    }

    /// What one visit of a node counts, below 0 on the low side.
    pub fn of_visit(self, ground: &Ground) -> i128 {
        match self {
            Side::High => ground.most.into(),
            Side::Low => -i128::from(ground.least),
        }
    }
}

impl<'a> Certificate<'a> {
    /// Whether it is as long as so many nodes and these facts want it, and the facts are of so many nodes each.
    pub fn fits(self, facts: Facts, nodes: usize) -> bool {
        let coefficients = facts.limits.len() as u128 * nodes as u128;
        facts.coefficients.len() as u128 == coefficients
            && self.multipliers.len() == facts.limits.len()
            && self.potentials.len() == nodes
    }

    pub fn potential(self, node: usize) -> i128 {
        self.potentials[node].into()
    }

    /// Each fact with its multiplier.
    fn multiplied(self, facts: Facts<'a>) -> impl Iterator<Item = (i128, Fact<'a>)> {
        let multipliers = self.multipliers.iter().map(|&multiplier| i128::from(multiplier));
        multipliers.zip(facts.each(self.potentials.len()))
    }

    /// What a visit of each node is left with (rule 18.3).
    pub fn rests(self, grounds: &Grounds, side: Side, facts: Facts) -> Vec<i128> {
        let whole = |ground| i128::from(self.denominator) * side.of_visit(ground);
        let mut rests: Vec<i128> = grounds.nodes.iter().map(whole).collect();
        for (multiplier, fact) in self.multiplied(facts) {
            for (rest, &own) in rests.iter_mut().zip(fact.coefficients) {
                *rest -= multiplier * i128::from(own);
            }
        }
        rests
    }

    /// Whether it holds at a node (rule 18.4), with what a visit of each is left with.
    pub fn holds_at(self, grounds: &Grounds, rests: &[i128], node: usize) -> bool {
        self.begins_at(grounds, rests, node) && self.leads_on_from(grounds, rests, node)
    }

    /// The entry's potential is enough for the first visit.
    pub fn begins_at(self, grounds: &Grounds, rests: &[i128], node: usize) -> bool {
        node != grounds.entry || self.potential(node) >= rests[node]
    }

    /// Along each arrow out of a marked node the potential is enough for one visit more.
    pub fn leads_on_from(self, grounds: &Grounds, rests: &[i128], node: usize) -> bool {
        let own = self.potential(node);
        let enough = |&target: &usize| self.potential(target) >= own + rests[target];
        !grounds.nodes[node].marked || grounds.nodes[node].targets.iter().all(enough)
    }

    /// The largest potential of a marked node, and the limits with their multipliers (rule 18.5).
    pub fn sum(self, grounds: &Grounds, facts: Facts) -> i128 {
        let marked = (0..grounds.nodes.len()).filter(|&node| grounds.nodes[node].marked);
        let largest = marked.map(|node| self.potential(node)).max();
        let limits = self.multiplied(facts);
        largest.expect("a table that passes marks the entry")
            + limits
                .map(|(multiplier, fact)| multiplier * i128::from(fact.limit))
                .sum::<i128>()
    }
}
