use crate::chart::Chart;

/// A table that a caller lends to be read. What is longer than used is not looked at.
#[derive(Clone, Copy)]
pub struct Lent<'a> {
    pub must: &'a [u8],
    pub may: &'a [u8],
    pub marks: &'a [u8],
}

impl<'a> Lent<'a> {
    /// The parts that are used, or nothing if a buffer is shorter than its part.
    pub fn used(self, chart: &Chart) -> Option<Lent<'a>> {
        let ages = chart.nodes.len() * chart.blocks.len();
        Some(Lent {
            must: self.must.get(..ages)?,
            may: self.may.get(..ages)?,
            marks: self.marks.get(..chart.nodes.len())?,
        })
    }

    pub fn marked(self, node: usize) -> bool {
        self.marks[node] == 1
    }

    /// A node's must ages and its may ages.
    pub fn rows(self, chart: &Chart, node: usize) -> (&'a [u8], &'a [u8]) {
        let blocks = chart.blocks.len();
        let row = node * blocks..(node + 1) * blocks;
        (&self.must[row.clone()], &self.may[row])
    }
}
