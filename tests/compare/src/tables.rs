//! Tables of an accepted chart: some that pass, and some that almost do.

use crate::table::Table;
use charts::random::Random;
use second::chart::Chart;
use second::limits::PASSES;
use second::passes::settle;
use second::table;
use std::ops::Range;

/// The kinds of tables that pass, as they are counted.
pub const PASSING: [&str; 4] = [
    "table: the tightest",
    "table: all nodes marked, all ages loosest",
    "table: reached nodes marked, all ages loosest",
    "table: looser here and there",
];

/// A table that passes, and its kind.
pub fn passing(random: &mut Random, chart: &Chart, tightest: &Table) -> (&'static str, Table) {
    let kind = random.below(PASSING.len() as u64) as usize;
    let table = match kind {
        0 => tightest.clone(),
        1 => Table::uniform(chart.nodes.len(), chart.blocks.len(), 1, chart.ways(), 0),
        2 => loosest_where_marked(chart, tightest),
        _ => looser(random, chart, tightest),
    };
    (PASSING[kind], table)
}

/// The places of a node's row.
fn row(chart: &Chart, node: usize) -> Range<usize> {
    node * chart.blocks.len()..(node + 1) * chart.blocks.len()
}

fn loosest_where_marked(chart: &Chart, tightest: &Table) -> Table {
    let mut table = tightest.clone();
    table.may.fill(0);
    for node in (0..chart.nodes.len()).filter(|&node| tightest.marks[node] == 1) {
        table.must[row(chart, node)].fill(chart.ways());
    }
    table
}

/// Some ages are drawn looser and some nodes marked; then passes carry that along the arrows, until the table passes again.
fn looser(random: &mut Random, chart: &Chart, tightest: &Table) -> Table {
    let mut drawn = tightest.clone();
    let ways = u64::from(chart.ways());
    let seldom = [1, 4, 40][random.below(3) as usize];
    for node in 0..chart.nodes.len() {
        let fresh = drawn.marks[node] == 0;
        if !random.once_in(if fresh { 3 } else { seldom }) {
            continue;
        }
        drawn.marks[node] = 1;
        for cell in row(chart, node) {
            let (must, may) = (&mut drawn.must[cell], &mut drawn.may[cell]);
            if fresh {
                (*must, *may) = (random.within(0, ways) as u8, random.within(0, ways) as u8);
            } else if random.once_in(2) {
                *must = random.within((*must).into(), ways) as u8;
                *may = random.within(0, (*may).into()) as u8;
            }
        }
    }
    let mut table = table::Table {
        blocks: chart.blocks.len(),
        must: &mut drawn.must,
        may: &mut drawn.may,
        marks: &mut drawn.marks,
    };
    settle(chart, &mut table, PASSES).expect("ages change so often at most");
    drawn
}

/// The kinds of tables that almost pass, as they are counted.
pub const ALMOST: [&str; 12] = [
    "table: a must age one less",
    "table: a must age one more",
    "table: a may age one less",
    "table: a may age one more",
    "table: a mark gone",
    "table: a mark more",
    "table: a mark above 1",
    "table: a must age above the ways",
    "table: a may age above the ways",
    "table: an unmarked row not zero",
    "table: the entry unmarked and its row zero",
    "table: must and may ages swapped",
];

/// Those of them that never pass, whatever the table was before.
pub fn never(kind: &str) -> bool {
    ALMOST[6..=10].contains(&kind)
}

/// A table after one change, and its kind; nothing if there is no place for such a change.
pub fn almost(random: &mut Random, chart: &Chart, passing: &Table) -> Option<(&'static str, Table)> {
    let kind = random.below(ALMOST.len() as u64) as usize;
    let mut table = passing.clone();
    let above = if random.once_in(2) {
        1
    } else {
        random.within(1, 100) as u8
    };
    match kind {
        0..=3 | 7 | 8 => {
            let node = node_with(random, passing, 1)?;
            let cell = cell_of(random, chart, node)?;
            let must = [0, 1, 7].contains(&kind);
            let age = if must {
                &mut table.must[cell]
            } else {
                &mut table.may[cell]
            };
            *age = match kind {
                0 | 2 => age.checked_sub(1)?,
                1 | 3 => *age + 1,
                _ => chart.ways() + above,
            };
        }
        4 => table.marks[node_with(random, passing, 1)?] = 0,
        5 => table.marks[node_with(random, passing, 0)?] = 1,
        6 => table.marks[random.below(chart.nodes.len() as u64) as usize] = above.max(2),
        9 => {
            let node = node_with(random, passing, 0)?;
            let cell = cell_of(random, chart, node)?;
            let part = if random.once_in(2) {
                &mut table.must
            } else {
                &mut table.may
            };
            part[cell] = random.within(1, chart.ways().into()) as u8;
        }
        10 => {
            let entry = chart.header.entry;
            table.marks[entry] = 0;
            table.must[row(chart, entry)].fill(0);
            table.may[row(chart, entry)].fill(0);
        }
        _ => std::mem::swap(&mut table.must, &mut table.may),
    }
    Some((ALMOST[kind], table))
}

/// Any node with such a mark.
fn node_with(random: &mut Random, table: &Table, mark: u8) -> Option<usize> {
    let nodes: Vec<usize> = (0..table.marks.len())
        .filter(|&node| table.marks[node] == mark)
        .collect();
    (!nodes.is_empty()).then(|| nodes[random.below(nodes.len() as u64) as usize])
}

/// Any place of a node's row. Often it is that of one of the node's own blocks, which its classes go by.
fn cell_of(random: &mut Random, chart: &Chart, node: usize) -> Option<usize> {
    let blocks = chart.blocks.len();
    let any = (blocks > 0).then(|| random.below(blocks as u64) as usize)?;
    let touches = chart.nodes[node].touches;
    let own = touches[random.below(touches.len() as u64) as usize].filter(|_| random.once_in(2));
    Some(node * blocks + own.unwrap_or(any))
}

/// The kind of a table of anything, as it is counted.
pub const NOISE: &str = "table: noise";

/// Marks and ages that are allowed, and otherwise anything.
pub fn noise(random: &mut Random, chart: &Chart) -> Table {
    let mut table = Table::uniform(chart.nodes.len(), chart.blocks.len(), 1, 0, 0);
    let ways = u64::from(chart.ways());
    table.must.fill_with(|| random.within(0, ways) as u8);
    table.may.fill_with(|| random.within(0, ways) as u8);
    table
}
