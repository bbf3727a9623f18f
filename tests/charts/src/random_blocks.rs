//! Random charts with just so many blocks.

use crate::random::Random;
use crate::random_charts::of_nodes;
use crate::random_reference::{reference, Sizes};
use crate::{Chart, Record};

/// A chart of so many nodes whose references have just so many blocks, which cannot be more than there are nodes.
pub fn of_blocks(random: &mut Random, nodes: u64, blocks: u64) -> Chart {
    assert!(blocks <= nodes, "{nodes} nodes have no {blocks} blocks");
    let mut chart = of_nodes(random, nodes);
    let line = chart.header.line;
    let list = different(random, blocks, line);
    let sizes = Sizes::of_a_chart(random);
    // the first nodes bring all blocks; then they are mixed among the others
    for (node, record) in chart.records.iter_mut().enumerate() {
        let fresh = list.get(node).copied();
        let any = (blocks > 0).then(|| list[random.below(blocks.max(1)) as usize]);
        let block = fresh.or(any.filter(|_| !random.once_in(5)));
        let own = block.map_or(Record::step(), |block| reference(random, line, block, &list, sizes));
        *record = record.doing(own);
    }
    for node in (1..chart.records.len()).rev() {
        let other = random.below(node as u64 + 1) as usize;
        let (one, two) = (chart.records[node], chart.records[other]);
        chart.records[node] = one.doing(two);
        chart.records[other] = two.doing(one);
    }
    chart
}

/// So many different blocks. Neighbours are as good as any, and fall into different sets.
fn different(random: &mut Random, blocks: u64, line: u64) -> Vec<u64> {
    let mut list = Vec::new();
    while (list.len() as u64) < blocks {
        let near = random.below(200);
        let block = if random.once_in(2) {
            near
        } else {
            random.below(1 << (32 - line))
        };
        if !list.contains(&block) {
            list.push(block);
        }
    }
    list
}
