//! The slowest charts that were found, with 64 blocks from 66 nodes on.

use crate::{Chart, Record};
use second::limits::BLOCKS;

/// The two blocks that grow old, alone in the first of two sets.
const P: usize = 0;
const Q: usize = 2;

/// A chart of so many nodes, 6 at the least. With 8 ways it takes 16 passes for each node, less 53.
///
/// A ring against the numbers, so that a pass carries a change one node far, and a trip takes as many passes as there are nodes. At its end
/// lead two ways back, and after a trip just one of them changes something: by `level` the block q becomes as old as p, by `raise` and `answer`
/// p becomes one older than q, if q was as old as p. So one must age grows by one in a trip: p and q are 1 and 0, then 1 1, 2 1, 2 2 and so on
/// up to 8 8. What the ring itself touches lies in the other set, and its arrows to the very same node take no pass more: both are only more work.
pub fn slowest(nodes: usize) -> Chart {
    let last = nodes - 1;
    let [level, entry, raise, answer, ring] = [0, last, last - 1, last - 2, last - 3];
    let record = |node: usize| match node {
        _ if node == entry => to(read(Q), &[raise]),
        _ if node == raise => to(read(P), &[answer]),
        _ if node == answer => to(read(Q), &[ring]),
        _ if node == level => to(read(P), &[ring]),
        1 => to(elsewhere(node), &[level, raise]),
        2 => to(elsewhere(node), &[1, answer]),
        _ => to(elsewhere(node), &[node - 1, node]),
    };
    let mut chart = Chart::of((0..nodes).map(record).collect()).shaped(1, 8, 0);
    chart.header.entry = entry as u64;
    chart
}

fn read(block: usize) -> Record {
    Record::read((block * 16) as u64)
}

/// A read of one of the blocks of the second set, which take turns.
fn elsewhere(node: usize) -> Record {
    read(2 * (node % (BLOCKS - 2)) + 1)
}

fn to(record: Record, targets: &[usize]) -> Record {
    targets.iter().fold(record, |record, &target| record.to(target as u64))
}
