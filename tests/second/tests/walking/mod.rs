//! Random walks on random charts, the caches that they find, and tables that pass without being the tightest.

use charts::random::Random;
use charts::random_charts::whole;
use second::analysis::Analysed;
use second::cache::Cache;
use second::chart::Chart;
use second::class::Class;
use second::header::Start;
use second::kept::Kept;
use second::lending::Lending;
use second::limits::{PASSES, TOUCHES};
use second::passes::settle;
use second::table::Table;

/// The bytes of a random chart, the chart, and the analysis's own table; nothing if it has too many blocks.
pub fn settled(random: &mut Random) -> Option<(Vec<u8>, Chart, Lending)> {
    let bytes = whole(random).bytes();
    let mut lending = Lending::largest();
    let Analysed::Settled { .. } = lending.analyse(&bytes, PASSES) else {
        return None;
    };
    let chart = Chart::read(&bytes).expect("the analysis accepted it");
    Some((bytes, chart, lending))
}

/// A cache as a walk may find it: empty, or with any blocks, also some that the chart does not have.
pub fn found(random: &mut Random, chart: &Chart) -> Cache {
    let mut cache = Cache::empty(chart.header.geometry);
    if chart.header.start == Start::Unknown {
        for _ in 0..random.below(60) {
            let block = match chart.blocks.len() {
                0 => random.below(1 << 24) as u32,
                _ if random.once_in(3) => random.below(1 << 24) as u32,
                blocks => chart.blocks[random.below(blocks as u64) as usize],
            };
            cache.touch(block);
        }
    }
    cache
}

/// A random walk of up to 400 nodes.
pub fn walk(random: &mut Random, chart: &Chart) -> Vec<usize> {
    let mut nodes = vec![chart.header.entry];
    while nodes.len() < 400 {
        let targets = chart.nodes[nodes[nodes.len() - 1]].arrows.targets();
        if targets.is_empty() {
            break;
        }
        nodes.push(targets[random.below(targets.len() as u64) as usize]);
    }
    nodes
}

/// A passing table that says no more than this one (rule 7.8), perhaps of more nodes, and its classes. Some ages are drawn looser and
/// some nodes marked; then passes carry that along the arrows, until the table passes again.
pub fn looser(random: &mut Random, bytes: &[u8], chart: &Chart, tighter: &Lending) -> Lending {
    let (nodes, blocks) = (chart.nodes.len(), chart.blocks.len());
    let mut lending = tighter.clone();
    let mut table = Table {
        blocks,
        must: &mut lending.must[..nodes * blocks],
        may: &mut lending.may[..nodes * blocks],
        marks: &mut lending.marks[..nodes],
    };
    let seldom = [2, 20, 200, 2_000][random.below(4) as usize];
    for node in 0..nodes {
        let fresh = !table.marked(node);
        if fresh && !random.once_in(4) {
            continue;
        }
        table.marks[node] = 1;
        for cell in table.row(node) {
            if fresh {
                table.must[cell] = random.within(0, chart.ways().into()) as u8;
                table.may[cell] = random.within(0, chart.ways().into()) as u8;
            } else if random.once_in(seldom) {
                table.must[cell] = random.within(table.must[cell].into(), chart.ways().into()) as u8;
                table.may[cell] = random.within(0, table.may[cell].into()) as u8;
            }
        }
    }
    // a column of ages that say nothing, as a tool would have it that knows nothing of one block
    if blocks > 0 && random.once_in(3) {
        let column = random.below(blocks as u64) as usize;
        for cell in (column..nodes * blocks).step_by(blocks) {
            if table.marked(cell / blocks) {
                (table.must[cell], table.may[cell]) = (chart.ways(), 0);
            }
        }
    }
    settle(chart, &mut table, PASSES).expect("ages change so often at most");
    let kept = Kept::of(chart);
    for node in 0..nodes {
        let both = Class::of(chart, lending.lent(), &kept, node).map(|class| class as u8);
        lending.classes[TOUCHES * node..][..TOUCHES].copy_from_slice(&both);
    }
    assert_eq!(lending.check(bytes), Ok(true));
    lending
}
