//! The touches that walks can make, by their blocks.

use second::chart::Chart;

#[derive(Clone, Copy, Default)]
pub struct Touch {
    pub node: usize,
    /// Whether it is the node's first or its second.
    pub place: usize,
}

/// The touches of one block after those of another.
pub struct Touches {
    all: Vec<Touch>,
    /// Where those of each block end.
    ends: Vec<usize>,
}

impl Touches {
    /// Those of the marked nodes.
    pub fn of(chart: &Chart, marks: &[u8]) -> Touches {
        let mut begins = vec![0; chart.blocks.len()];
        each(chart, marks, |block, _| begins[block] += 1);
        let mut count = 0;
        for begin in &mut begins {
            count += std::mem::replace(begin, count);
        }
        let mut all = vec![Touch::default(); count];
        // each is put behind those of its block that are there, so that where a block's begin comes to be where they end
        let mut ends = begins;
        each(chart, marks, |block, touch| {
            all[ends[block]] = touch;
            ends[block] += 1;
        });
        Touches { all, ends }
    }

    /// Those of a block, by their nodes.
    pub fn of_block(&self, block: usize) -> &[Touch] {
        let begin = block.checked_sub(1).map_or(0, |before| self.ends[before]);
        &self.all[begin..self.ends[block]]
    }
}

fn each(chart: &Chart, marks: &[u8], mut tell: impl FnMut(usize, Touch)) {
    for (number, node) in chart.nodes.iter().enumerate().filter(|&(number, _)| marks[number] == 1) {
        for (place, block) in node.touched().enumerate() {
            tell(block, Touch { node: number, place });
        }
    }
}
