//! The map of sets: which blocks compete for the ways of each.

use crate::findings::Findings;
use crate::json::{list, object, Value};
use crate::paint::{Colour, Painted};
use crate::table::{Cell, Side, Table};
use crate::words::{block, counted};
use std::collections::BTreeMap;

/// The nodes that touch a block, those that a walk comes to and the others.
#[derive(Default)]
struct Users {
    reached: Vec<usize>,
    unreached: Vec<usize>,
}

type Blocks = BTreeMap<u32, Users>;

pub struct Map<'a> {
    findings: &'a Findings<'a>,
    /// The sets that some block is in, and the blocks of each.
    sets: BTreeMap<u32, Blocks>,
}

/// How many blocks compete. One that no walk touches does not.
fn competing(blocks: &Blocks) -> usize {
    blocks.values().filter(|users| !users.reached.is_empty()).count()
}

impl<'a> Map<'a> {
    pub fn of(findings: &'a Findings) -> Map<'a> {
        let mut sets: BTreeMap<u32, Blocks> = BTreeMap::new();
        for (node, touches) in findings.touches.iter().enumerate() {
            for touch in touches {
                let users = sets.entry(touch.set).or_default().entry(touch.block).or_default();
                match findings.reached(node) {
                    true => users.reached.push(node),
                    false => users.unreached.push(node),
                }
            }
        }
        Map { findings, sets }
    }

    /// How many blocks compete in a set.
    pub fn competing_in(&self, set: u32) -> usize {
        self.sets.get(&set).map_or(0, competing)
    }

    /// Each block with its set and who touches it: first those nodes that a walk comes to, then the others.
    pub fn blocks(&self) -> impl Iterator<Item = (u32, u32, &[usize], &[usize])> {
        self.sets.iter().flat_map(|(set, blocks)| {
            let each = blocks.iter();
            each.map(|(block, users)| (*set, *block, &users.reached[..], &users.unreached[..]))
        })
    }

    fn over_full(&self, blocks: &Blocks) -> bool {
        competing(blocks) > self.findings.known.header.ways
    }

    /// How many sets no block is in.
    fn unused(&self) -> usize {
        (1 << self.findings.known.header.sets) - self.sets.len()
    }

    /// Who touches a block, in short.
    fn touched_by(&self, users: &Users) -> Cell {
        match users.reached.as_slice() {
            [] => Cell::coloured(
                format!(
                    "not counted, unreached: {}",
                    self.findings.names(&users.unreached, "and")
                ),
                Some(Colour::Dim),
            ),
            reached => self.findings.names(reached, "and").into(),
        }
    }

    pub fn write(&self, out: &mut Painted) {
        if self.sets.is_empty() {
            return out.line("no node touches a block: all sets stay as they are");
        }
        let ways = counted(self.findings.known.header.ways, "way");
        let columns = ["set", "competing", "", "block", "touched by"].map(|heading| (heading, Side::Left));
        let mut table = Table::new(columns);
        for (set, blocks) in &self.sets {
            let over_full = if self.over_full(blocks) { "OVER-FULL" } else { "" };
            let mut first = [
                Cell::from(set.to_string()),
                Cell::from(format!("{} for {ways}", counted(competing(blocks), "block"))),
                Cell::coloured(over_full, Some(Colour::Red)),
            ];
            // those that compete stand before those that do not
            let (counted, apart): (Vec<_>, Vec<_>) = blocks.iter().partition(|(_, users)| !users.reached.is_empty());
            for (number, users) in counted.into_iter().chain(apart) {
                let [set, competing, mark] = first;
                table.row([set, competing, mark, block(*number).into(), self.touched_by(users)]);
                first = ["", "", ""].map(Cell::from);
            }
        }
        table.write(0, out);
        match self.unused() {
            0 => {}
            1 => out.line("1 set has no block"),
            sets => out.line(format!("{sets} sets have no block")),
        }
        if self.sets.values().any(|blocks| self.over_full(blocks)) {
            out.line("");
            out.line(
                "OVER-FULL: more blocks than ways, so a block there can be pushed out before its turn comes again.",
            );
        }
    }

    pub fn json(&self) -> Value {
        let block = |(block, users): (&u32, &Users)| {
            object([
                ("block", u64::from(*block).into()),
                ("nodes", self.findings.briefs_json(&users.reached)),
                ("unreached_nodes", self.findings.briefs_json(&users.unreached)),
            ])
        };
        let set = |(set, blocks): (&u32, &Blocks)| {
            object([
                ("set", u64::from(*set).into()),
                ("competing", competing(blocks).into()),
                ("ways", self.findings.known.header.ways.into()),
                ("over_full", self.over_full(blocks).into()),
                ("blocks", list(blocks.iter().map(block))),
            ])
        };
        object([
            ("used", list(self.sets.iter().map(set))),
            ("without_blocks", self.unused().into()),
        ])
    }
}
