//! How the blocks that reached nodes touch come into each other's way, counted.

use crate::table::Table;
use crate::tally::Tally;
use second::chart::Chart;

/// Charts by the blocks of their fullest set: fewer than the ways less one, one less, as many, one more, more, twice as many or more.
pub const FULLEST: &str = "blocks of the fullest set beside the ways";

/// Charts by how many sets have at least as many blocks as ways; three stands for more, too.
pub const FULL: &str = "full sets";

/// Charts by their ways, in which a block is in the last place of its set.
pub const LAST_MUST: &str = "a must age of one less than the ways, of ways";
pub const LAST_MAY: &str = "a may age of one less than the ways, of ways";

/// Two blocks, or two bytes of a block, that one bit tells apart.
pub const ONE_BIT: [&str; 6] = [
    "two blocks apart in the set's lowest bit",
    "two blocks apart in the set's highest bit",
    "two blocks apart in the bit above the set's",
    "two blocks apart in the next bit",
    "two blocks apart in the highest bit",
    "two bytes of one block apart in its highest bit",
];

/// Addresses, blocks and sets at their ends.
pub const END: [&str; 5] = [
    "the first address",
    "the last address",
    "the last block",
    "a block of the last of many sets",
    "blocks of the first and the last of many sets",
];

/// What an accepted chart has, with the table that the analysis has written.
pub fn count(tally: &mut Tally, bytes: &[u8], chart: &Chart, tightest: &Table) {
    let marked = |&node: &usize| tightest.marks[node] == 1;
    let nodes: Vec<usize> = (0..chart.nodes.len()).filter(marked).collect();
    let mut columns: Vec<usize> = nodes.iter().flat_map(|&node| chart.nodes[node].touched()).collect();
    columns.sort_unstable();
    columns.dedup();
    sets(tally, chart, &columns);
    ages(tally, chart, tightest);
    let references = nodes.iter().filter(|&&node| chart.nodes[node].touches[0].is_some());
    let mut addresses: Vec<u32> = references.map(|&node| address(bytes, node)).collect();
    addresses.sort_unstable();
    one_bit(tally, chart, &columns, &addresses);
    ends(tally, chart, &columns, &addresses);
}

/// The address of a record.
fn address(bytes: &[u8], node: usize) -> u32 {
    let record = bytes[8 + 8 * node..][..8].try_into().expect("a record has eight bytes");
    (u64::from_be_bytes(record) >> 30) as u32
}

fn sets(tally: &mut Tally, chart: &Chart, columns: &[usize]) {
    let mut sizes = [0; 256];
    for &column in columns {
        sizes[usize::from(chart.sets[column])] += 1;
    }
    let ways = usize::from(chart.ways());
    let fullest = sizes.into_iter().max().unwrap_or(0);
    let kind = match fullest {
        size if size >= 2 * ways => 5,
        size if size > ways + 1 => 4,
        size => (size + 2).saturating_sub(ways),
    };
    tally.at(FULLEST, kind);
    tally.at(FULL, sizes.iter().filter(|&&size| size >= ways).count().min(3));
}

fn ages(tally: &mut Tally, chart: &Chart, tightest: &Table) {
    let (ways, blocks) = (chart.ways(), chart.blocks.len().max(1));
    for (word, ages) in [(LAST_MUST, &tightest.must), (LAST_MAY, &tightest.may)] {
        let last = |(cell, &age): (usize, &u8)| age + 1 == ways && tightest.marks[cell / blocks] == 1;
        if ages.iter().enumerate().any(last) {
            tally.at(word, ways.into());
        }
    }
}

fn one_bit(tally: &mut Tally, chart: &Chart, columns: &[usize], addresses: &[u32]) {
    let geometry = chart.header.geometry;
    let blocks: Vec<u32> = columns.iter().map(|&column| chart.blocks[column]).collect();
    let sets = geometry.sets;
    let has = [
        sets > 0 && apart(&blocks, 0),
        sets > 0 && apart(&blocks, sets - 1),
        apart(&blocks, sets),
        apart(&blocks, sets + 1),
        apart(&blocks, 31 - geometry.line),
        apart(addresses, geometry.line - 1),
    ];
    for (has, word) in has.into_iter().zip(ONE_BIT) {
        tally.add_if(has, word);
    }
}

/// Whether two of these ascending numbers differ in this bit alone.
fn apart(numbers: &[u32], bit: u32) -> bool {
    let other = |number: &u32| numbers.binary_search(&(number ^ 1 << bit)).is_ok();
    numbers.iter().any(other)
}

fn ends(tally: &mut Tally, chart: &Chart, columns: &[usize], addresses: &[u32]) {
    let geometry = chart.header.geometry;
    let in_set = |set: u32| columns.iter().any(|&column| u32::from(chart.sets[column]) == set);
    let last = (1 << geometry.sets) - 1;
    let many = geometry.sets > 2;
    let last_block = u32::MAX >> geometry.line;
    let has = [
        addresses.first() == Some(&0),
        addresses.last() == Some(&u32::MAX),
        columns.last().is_some_and(|&column| chart.blocks[column] == last_block),
        many && in_set(last),
        many && in_set(0) && in_set(last),
    ];
    for (has, word) in has.into_iter().zip(END) {
        tally.add_if(has, word);
    }
}
