//! Charts in which most nodes are reached and blocks crowd, so that what one reference does to the others is seen.

use crate::random::Random;
use crate::random_arrows::{arrows, Arrows};
use crate::random_crowds::{crowd, different, just, neighbours};
use crate::random_reference::{reference, with_next, Sizes};
use crate::{Chart, Header, Record};

const BLOCKS: u64 = second::limits::BLOCKS as u64;
const WAYS: u64 = second::limits::WAYS as u64;

/// A chart of so many nodes, most of them reached, with no fault but perhaps a block too many.
pub fn reached(random: &mut Random, nodes: u64) -> Chart {
    let header = header(random, nodes);
    let sizes = Sizes::of_a_chart(random);
    let blocks = match random.below(12) {
        0 => about_the_most(random, &header),
        1..=3 => neighbours(random, &header),
        4..=6 => [neighbours(random, &header), crowd(random, &header)].concat(),
        _ => crowd(random, &header),
    };
    let mut blocks = match sizes {
        Sizes::Any if blocks.len() < BLOCKS as usize / 2 => with_next(random, header.line, blocks),
        _ => blocks,
    };
    random.mix(&mut blocks);
    chart(random, header, different(blocks), sizes)
}

/// Such a chart with just so many blocks, which cannot be more than there are nodes.
pub fn reached_with(random: &mut Random, nodes: u64, blocks: u64) -> Chart {
    assert!(blocks <= nodes, "{nodes} nodes have no {blocks} blocks");
    let header = header(random, nodes);
    let sizes = Sizes::of_a_chart(random);
    let blocks = just(random, &header, blocks as usize);
    chart(random, header, blocks, sizes)
}

/// As many blocks as a chart may have, about, or as there are nodes to touch them.
fn about_the_most(random: &mut Random, header: &Header) -> Vec<u64> {
    let count = random.within(BLOCKS - 1, BLOCKS + 2).min(header.nodes);
    just(random, header, count as usize)
}

/// A header without fault; the entry is put in later. Where nodes are few, so are the ways as often as not, or no set would be filled.
fn header(random: &mut Random, nodes: u64) -> Header {
    let few = nodes.div_ceil(2).min(WAYS);
    let most = if random.once_in(2) { few } else { WAYS };
    Header {
        line: random.within(2, 8),
        sets: random.within(0, 8),
        ways: random.within(1, most),
        start: random.below(2),
        ..Header::of(nodes as usize)
    }
}

/// A chart that touches these blocks and no other: all of them where there are as many nodes.
fn chart(random: &mut Random, mut header: Header, blocks: Vec<u64>, sizes: Sizes) -> Chart {
    let nodes = header.nodes as usize;
    let Arrows { order, targets } = arrows(random, header.nodes);
    header.entry = order[0];
    let touched = touched(random, nodes, &blocks[..blocks.len().min(nodes)]);
    let mut records = vec![Record::step(); nodes];
    for (&node, block) in order.iter().zip(touched) {
        let record = block.map_or(Record::step(), |block| {
            reference(random, header.line, block, &blocks, sizes)
        });
        let targets = &targets[node as usize];
        records[node as usize] = targets.iter().fold(record, |record, &target| record.to(target));
    }
    Chart { header, records }
}

/// Which block is touched first at each place of the order. Each block has a place of its own, one of the first or any; at the others stands one
/// of the last few again, the next in turn, any, or none.
fn touched(random: &mut Random, nodes: usize, blocks: &[u64]) -> Vec<Option<u64>> {
    let mut own: Vec<Option<u64>> = blocks.iter().map(|&block| Some(block)).collect();
    own.resize(nodes, None);
    if random.once_in(2) {
        random.mix(&mut own);
    }
    let steps = [4, 12, 60][random.below(3) as usize];
    let again = [2, 4, 20][random.below(3) as usize];
    for place in 0..nodes {
        if own[place].is_some() || blocks.is_empty() || random.once_in(steps) {
            continue;
        }
        let last = own[place.saturating_sub(random.within(1, 4) as usize)];
        own[place] = match last {
            Some(block) if random.once_in(again) => Some(block),
            _ if random.once_in(2) => Some(blocks[place % blocks.len()]),
            _ => Some(blocks[random.below(blocks.len() as u64) as usize]),
        };
    }
    own
}
