//! A chart taken apart by the archive: its nodes and its blocks.

use crate::ask;
use crate::draw::{self, BLOCKS_LENGTH};
use crate::expected::fields;
use crate::given::Given;
use crate::guarded::{word, Guarded};
use crate::raw_parts;
use crate::same::{holds, Held};
use crate::tally::{Tally, ANSWER};
use charts::random::Random;
use second::chart::records;
use second::record::RecordFields;
use veilbuzz::{Header, Heading, Refusal};

/// Whether there was a node of the number that was asked for.
pub const THERE: &str = "such a node is there";

/// Charts of which every node was asked for, by how many they have: 0 up to 80, 1 up to 256, 2 more.
pub const EVERY: &str = "every node asked for, by their number";

/// Asks for a node and for the blocks of any chart, refused or not.
pub fn node_and_blocks(random: &mut Random, tally: &mut Tally, chart: &[u8], reader: Result<Header, Refusal>) -> Held {
    let (nodes, blocks) = match reader {
        Ok(header) => (header.nodes, header.blocks),
        Err(_) => (chart.len() / 8, random.below(5) as usize),
    };
    let number = draw::node_number(random, tally, nodes);
    if let Ok(node) = ask::node(tally, chart, number)? {
        tally.at(THERE, node.is_some().into());
    }
    let length = draw::length(random, tally, BLOCKS_LENGTH, blocks);
    let lent = Guarded::of(random, length, word);
    _ = ask::blocks(tally, chart, &lent)?;
    if random.once_in(4) {
        raw_parts::node(random, tally, chart, number)?;
        raw_parts::blocks(random, tally, chart, &lent)?;
    }
    Ok(())
}

/// What an accepted chart is to be written from again: what the archive tells of it. Each node that is asked for is held to the second
/// program's, which stands for the others.
pub fn taken(random: &mut Random, tally: &mut Tally, chart: &[u8], header: Header) -> Held<Given> {
    let records: Vec<RecordFields> = records(chart).collect();
    for node in asked_for(random, tally, records.len()) {
        let answer = veilbuzz::node(chart, node);
        let second = Ok(Some(fields(records[node])));
        holds(answer == second, || {
            format!("node {node}: the archive's is {answer:?}, the second program's {second:?}")
        })?;
        tally.add(ANSWER);
    }
    let heading = Heading::from(header);
    let numbers = [
        heading.line,
        heading.sets,
        heading.ways,
        heading.start,
        heading.nodes,
        heading.entry,
    ];
    Ok(Given::of(numbers, &records))
}

/// Every node of a small chart. The whole chart is read for each, so that of most larger ones it is the first, the last and one between.
fn asked_for(random: &mut Random, tally: &mut Tally, nodes: usize) -> Vec<usize> {
    let (kind, turns) = match nodes {
        ..=80 => (0, 1),
        81..=256 => (1, 8),
        _ => (2, 32),
    };
    if random.once_in(turns) {
        tally.at(EVERY, kind);
        return (0..nodes).collect();
    }
    let any = random.below(nodes as u64) as usize;
    vec![0, any, nodes - 1]
}
