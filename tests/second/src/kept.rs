use crate::chart::Chart;
use crate::limits::TOUCHES;
use crate::one_block::OneBlock;

/// Of each touch whether, just before it, the set of its block has fewer members than there are ways. It is the chart's alone: no table that
/// is lent has a say in it.
pub struct Kept(Vec<[bool; TOUCHES]>);

impl Kept {
    /// Works the sets out, one block after another. A node that no walk reaches has empty ones (rule 16.8).
    pub fn of(chart: &Chart) -> Kept {
        let mut few = vec![[false; TOUCHES]; chart.nodes.len()];
        for block in 0..chart.blocks.len() {
            let table = OneBlock::settled(chart, block);
            for (number, node) in chart.nodes.iter().enumerate() {
                let mut since = table.nodes[number].unwrap_or_default();
                for (touch, m) in node.touched().enumerate() {
                    if m == block {
                        few[number][touch] = since.members() < usize::from(chart.ways());
                    }
                    since.touch(chart, block, m);
                }
            }
        }
        Kept(few)
    }

    /// Of each touch that a node can make; of one that it does not make, no.
    pub fn at(&self, node: usize) -> [bool; TOUCHES] {
        self.0[node]
    }
}
