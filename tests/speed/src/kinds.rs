//! Kinds of charts, of any size: each node reads a block, or over the end of one, in a cache of four sets of eight ways.

use charts::random::Random;
use charts::{Chart, Record};

#[derive(Clone, Copy, Debug, PartialEq, Eq)]
pub enum Kind {
    /// A straight line with short cuts: all arrows lead on, and two passes do.
    Short,
    /// Loops of 4 nodes in loops of 16 in loops of 64 in one of all.
    Looping,
    /// A line that runs against the numbers, and back to its start: a pass carries a change one node far.
    Backward,
    /// As short, with the blocks in any order.
    Mixed,
    /// As short, with each read over the end of a line: two touches for each node.
    Straddling,
}

impl Kind {
    /// The kinds whose blocks take turns.
    pub const IN_TURN: [Kind; 3] = [Kind::Short, Kind::Looping, Kind::Backward];
    /// How many charts with blocks in any order there are: of one alone a processor learns the jumps by heart.
    const ORDERS: u64 = 200;

    pub fn name(self) -> &'static str {
        match self {
            Kind::Short => "short",
            Kind::Looping => "looping",
            Kind::Backward => "backward",
            Kind::Mixed => "mixed",
            Kind::Straddling => "straddling",
        }
    }

    /// One chart where the blocks take turns, many where they come in any order.
    pub fn charts(self, nodes: usize, blocks: usize) -> Vec<Vec<u8>> {
        match self {
            Kind::Mixed => (0..Kind::ORDERS)
                .map(|seed| {
                    let mut random = Random::new(seed);
                    self.chart(nodes, |_| read(random.below(blocks as u64) as usize))
                })
                .collect(),
            // the last block is only gone into
            Kind::Straddling => vec![self.chart(nodes, |node| over_the_end(node % (blocks - 1)))],
            _ => vec![self.chart(nodes, |node| read(node % blocks))],
        }
    }

    fn chart(self, nodes: usize, mut reads: impl FnMut(usize) -> Record) -> Vec<u8> {
        let records = (0..nodes).map(|node| {
            self.targets(node, nodes)
                .into_iter()
                .fold(reads(node), |read, target| read.to(target as u64))
        });
        let mut chart = Chart::of(records.collect()).shaped(2, 8, 1);
        if let Kind::Backward = self {
            chart.header.entry = nodes as u64 - 1;
        }
        chart.bytes()
    }

    fn targets(self, node: usize, nodes: usize) -> Vec<usize> {
        match self {
            Kind::Short | Kind::Mixed | Kind::Straddling => (node + 1..nodes).take(2).collect(),
            Kind::Looping => {
                let back = [nodes, 64, 16, 4]
                    .into_iter()
                    .find(|&size| (node + 1).is_multiple_of(size));
                let on = Some(node + 1).filter(|&next| next < nodes);
                on.into_iter().chain(back.map(|size| node + 1 - size)).collect()
            }
            Kind::Backward => vec![node.checked_sub(1).unwrap_or(nodes - 1)],
        }
    }
}

/// A read of the first byte of a block.
fn read(block: usize) -> Record {
    Record::read((block * 16) as u64)
}

/// A read of the last byte of a block and of the byte behind it.
fn over_the_end(block: usize) -> Record {
    Record::read((block * 16 + 15) as u64).sized(1)
}
