//! What rule 16.1 says, walk by walk: a table has at each node just the union over the walks that come there.

use crate::drawn::charts;
use crate::equations::has;
use charts::random::Random;
use second::chart::Chart;
use second::one_block::OneBlock;
use second::since::Since;

/// What one walk has of a block, after these touches: the others of its set behind its own last touch.
fn of_walk(chart: &Chart, block: usize, touches: &[usize]) -> Since {
    let Some(last) = touches.iter().rposition(|&m| m == block) else {
        return Since::default();
    };
    let others = touches[last + 1..]
        .iter()
        .filter(|&&m| chart.sets[m] == chart.sets[block]);
    Since {
        touched: true,
        others: others.fold(0, |set, m| set | 1 << m),
    }
}

/// The union, for each node and block, over every walk that comes to so many more nodes.
fn every_walk(chart: &Chart, node: usize, more: usize, touches: &mut Vec<usize>, union: &mut [Vec<Option<Since>>]) {
    for (block, nodes) in union.iter_mut().enumerate() {
        nodes[node].get_or_insert_default().meet(of_walk(chart, block, touches));
    }
    if more > 0 {
        let before = touches.len();
        touches.extend(chart.nodes[node].touched());
        for &target in chart.nodes[node].arrows.targets() {
            every_walk(chart, target, more - 1, touches, union);
        }
        touches.truncate(before);
    }
}

/// A walk that a member needs comes to the block, then to the other one, and then to the node, and no part of it has to come to a node
/// twice. So walks of three times as many nodes as there are, and one, are all that count.
#[test]
fn a_table_has_what_all_walks_have_together() {
    let mut members = 0;
    for chart in charts(34, 600, 4) {
        let nodes = chart.nodes.len();
        let mut union = vec![vec![None; nodes]; chart.blocks.len()];
        every_walk(&chart, chart.header.entry, 3 * nodes, &mut Vec::new(), &mut union);
        for (block, union) in union.into_iter().enumerate() {
            members += union.iter().flatten().map(|since| since.members()).sum::<usize>();
            assert_eq!(
                OneBlock::settled(&chart, block).nodes,
                union,
                "block {block} of {chart:?}"
            );
        }
    }
    assert!(members > 500, "only {members} members were met");
}

#[test]
fn no_random_walk_has_more_than_a_table() {
    let mut random = Random::new(35);
    let (mut touched, mut just) = (0, 0);
    for chart in charts(36, 400, 60).filter(|chart| !chart.blocks.is_empty()) {
        let block = random.below(chart.blocks.len() as u64) as usize;
        let table = OneBlock::settled(&chart, block).nodes;
        let (mut node, mut touches) = (chart.header.entry, Vec::new());
        for _ in 0..200 {
            let since = of_walk(&chart, block, &touches);
            assert!(has(table[node], since));
            touched += usize::from(since.touched);
            just += usize::from(since.touched && table[node] == Some(since));
            touches.extend(chart.nodes[node].touched());
            let targets = chart.nodes[node].arrows.targets();
            if targets.is_empty() {
                break;
            }
            node = targets[random.below(targets.len() as u64) as usize];
        }
    }
    assert!(
        touched > 10_000 && just > 2_000,
        "of {touched} points {just} have just as much"
    );
}
