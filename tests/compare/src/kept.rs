//! Blocks that stay, counted: what is kept and what almost is, and what a lent table makes of nodes that no walk reaches.

use crate::table::LentTable;
use crate::tally::Tally;
use second::chart::Chart;
use second::class::Class;
use second::kept::Kept;
use second::limits::TOUCHES;
use second::one_block::OneBlock;

/// Touches of reached nodes by how many other blocks are in the set of their own, on arrival; nine stands for more, too.
pub const MEMBERS: &str = "members of a set on arrival at a touch";
pub const MOST_MEMBERS: usize = 9;

/// Blocks by the passes that their own table takes.
pub const PASSES: &str = "passes of one block";

/// What the blocks and touches of a chart may be like.
pub const LIKE: [&str; 9] = [
    "a block that is kept at two nodes",
    "a block that is kept and unsure",
    "a block that is kept and a miss",
    "a block that is kept and a hit",
    "a block that is kept and touched where no walk comes",
    "a kept touch with one member less than ways, and some",
    "an unsure touch with as many members as ways",
    "a kept touch of a block that no walk has touched",
    "an unsure second touch with fewer members than ways on arrival",
];

/// Where walks meet with different sets: neither of two arrows into a node brings all that the other does.
pub const MEETING: &str = "walks that meet with a member each that the other does not have";

/// Tables that are not refused and mark a node that no walk reaches: where a touch of it is kept at a ceiling above 0, and where so its block
/// pays for a miss that it would not pay for without that node.
pub const MARKED: [&str; 2] = [
    "a table with a kept touch where no walk comes",
    "a table with a block that pays for such a touch alone",
];

/// What is held of each block of a chart.
pub fn held(chart: &Chart) -> Vec<OneBlock> {
    let blocks = 0..chart.blocks.len();
    blocks.map(|block| OneBlock::settled(chart, block)).collect()
}

/// How many members a block's set has on arrival at a node.
pub fn members(held: &[OneBlock], node: usize, block: usize) -> usize {
    held[block].nodes[node].unwrap_or_default().members()
}

/// Counts what a settled chart has, with what is held of its blocks and the classes that it was given.
pub fn count(tally: &mut Tally, chart: &Chart, held: &[OneBlock], classes: &[u8]) {
    let ways = usize::from(chart.ways());
    let mut has = [false; LIKE.len()];
    for (block, table) in held.iter().enumerate() {
        tally.at(PASSES, table.passes);
        let met = numbers_of(chart, block, classes);
        let kept = met[5] > 0;
        has[0] |= met[5] > 1;
        has[1] |= kept && met[3] > 0;
        has[2] |= kept && met[2] > 0;
        has[3] |= kept && met[1] > 0;
        has[4] |= kept && met[0] > 0;
    }
    for (number, node) in chart.nodes.iter().enumerate() {
        for (touch, block) in node.touched().enumerate() {
            let class = classes[TOUCHES * number + touch];
            let Some(since) = held[block].nodes[number] else {
                continue;
            };
            let members = since.members();
            tally.at(MEMBERS, members.min(MOST_MEMBERS));
            has[5] |= class == 5 && touch == 0 && members > 0 && members + 1 == ways;
            has[6] |= class == 3 && touch == 0 && members == ways;
            has[7] |= class == 5 && !since.touched;
            has[8] |= class == 3 && touch == 1 && members < ways;
        }
    }
    for (has, like) in has.into_iter().zip(LIKE) {
        tally.add_if(has, like);
    }
    tally.add_if((0..held.len()).any(|block| meets(chart, held, block)), MEETING);
}

/// How many touches of a block have each class, by its number. One that no walk comes to has class 0.
fn numbers_of(chart: &Chart, block: usize, classes: &[u8]) -> [usize; 6] {
    let mut met = [0; 6];
    for (number, node) in chart.nodes.iter().enumerate() {
        for (touch, _) in node.touched().enumerate().filter(|&(_, m)| m == block) {
            met[usize::from(classes[TOUCHES * number + touch])] += 1;
        }
    }
    met
}

/// Whether two arrows into one node bring sets of a block of which neither has all of the other.
fn meets(chart: &Chart, held: &[OneBlock], block: usize) -> bool {
    let mut brought = vec![None; chart.nodes.len()];
    for (number, node) in chart.nodes.iter().enumerate() {
        let Some(since) = held[block].nodes[number] else {
            continue;
        };
        let others = since.after(chart, block, node).others;
        for &target in node.arrows.targets() {
            let before = *brought[target].get_or_insert(others);
            if before & !others != 0 && others & !before != 0 {
                return true;
            }
        }
    }
    false
}

/// Counts what a table, which the totals were asked with and which was not refused, makes of nodes that the tightest does not mark.
pub fn count_marked(tally: &mut Tally, chart: &Chart, table: &LentTable, reached: &[u8], ceilings: &[u16]) {
    let lent = table.to_second();
    let marks = |&node: &usize| lent.marked(node) && reached[node] == 0;
    if !(0..chart.nodes.len()).any(|node| marks(&node)) {
        return;
    }
    let kept = Kept::of(chart);
    // whether each block is kept at a reached node, and at another
    let mut blocks = vec![[false; 2]; chart.blocks.len()];
    for (number, node) in chart
        .nodes
        .iter()
        .enumerate()
        .filter(|&(number, _)| ceilings[number] > 0)
    {
        for (block, class) in node.touched().zip(Class::of(chart, lent, &kept, number)) {
            blocks[block][usize::from(reached[number] == 0)] |= class == Class::Kept;
        }
    }
    tally.add_if(blocks.iter().any(|&[_, other]| other), MARKED[0]);
    tally.add_if(blocks.contains(&[false, true]), MARKED[1]);
}
