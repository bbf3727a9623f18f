//! What the totals are asked with, and the deadline, which is of the totals.

use crate::basis::{number, Basis};
use crate::buffer::Buffer;
use crate::lengths::just;
use charts::random::Random;
use second::refusal::Refusal;
use second::totals::{totals, Bounds, Totals};

/// A chart, a table for it, costs, and how often a walk comes to each node.
pub struct Question {
    basis: Basis,
    floors: Buffer,
    ceilings: Buffer,
}

impl Question {
    pub fn of(random: &mut Random) -> Question {
        let basis = Basis::of(random);
        let visits: Vec<(u16, u16)> = (0..basis.nodes())
            .map(|node| visits(random, basis.table.marked(node)))
            .collect();
        let floors = bound(random, visits.iter().map(|visit| visit.0).collect());
        let ceilings = bound(random, visits.iter().map(|visit| visit.1).collect());
        Question {
            basis,
            floors,
            ceilings,
        }
    }

    pub fn totals(&self) -> Result<Totals, Refusal> {
        let bounds = Bounds {
            floors: &self.floors.elements::<u16>(),
            ceilings: &self.ceilings.elements::<u16>(),
        };
        totals(&self.basis.bytes, self.basis.table.lent(), self.basis.costs, bounds)
    }

    /// The costs as numbers of a call.
    pub fn costs(&self) -> [u64; 2] {
        self.basis.numbers()
    }

    /// The buffers in the order of the parameters, before those that are written.
    pub fn buffers(self) -> Vec<Buffer> {
        let mut buffers = self.basis.buffers();
        buffers.extend([self.floors, self.ceilings]);
        buffers
    }
}

/// A floor and a ceiling of a node, which are right but for once in a hundred times.
fn visits(random: &mut Random, marked: bool) -> (u16, u16) {
    let (one, other) = (number(random), number(random));
    match random.below(100) {
        0 => (one, other),
        1 => (one, one),
        2 => (one, one.saturating_sub(1)),
        _ if marked => (one.min(other), one.max(other)),
        _ => (0, one),
    }
}

/// Floors or ceilings, not as many as there are nodes once in sixteen times.
fn bound(random: &mut Random, bounds: Vec<u16>) -> Buffer {
    let length = just(random, bounds.len(), 48);
    Buffer::reads(random, &bounds, bounds.len(), length)
}
