//! The table of one block, and passes over it until one changes nothing.

use crate::chart::Chart;
use crate::limits::passes_of_a_block;
use crate::since::Since;

/// What each node has of one block on arrival (rule 16.6).
#[derive(Clone, Debug, PartialEq, Eq)]
pub struct OneBlock {
    /// Nothing where no walk comes.
    pub nodes: Vec<Option<Since>>,
    /// How many passes it took, with the one that changed nothing.
    pub passes: usize,
}

impl OneBlock {
    /// Settles the table of a block, named by its place in the chart's list: at first the entry alone has something, which is nothing touched.
    pub fn settled(chart: &Chart, block: usize) -> OneBlock {
        let mut nodes = vec![None; chart.nodes.len()];
        nodes[chart.header.entry] = Some(Since::default());
        let passes = (1..=passes_of_a_block(nodes.len()))
            .find(|_| !pass(chart, block, &mut nodes))
            .expect("each pass before the last changes a node, and none changes more often");
        OneBlock { nodes, passes }
    }
}

/// One pass over the nodes in ascending order (rules 9.2 to 9.4). Whether it changed anything.
fn pass(chart: &Chart, block: usize, nodes: &mut [Option<Since>]) -> bool {
    let mut changed = false;
    for (number, node) in chart.nodes.iter().enumerate() {
        let Some(since) = nodes[number] else { continue };
        let after = since.after(chart, block, node);
        for &target in node.arrows.targets() {
            changed |= match &mut nodes[target] {
                Some(held) => held.meet(after),
                none => {
                    *none = Some(after);
                    true
                }
            };
        }
    }
    changed
}
