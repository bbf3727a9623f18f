//! Refusal 10, and the number of blocks of an accepted chart.

use charts::{Chart, Record};
use reports::each::each;
use reports::hold::{accepts, says};
use second::limits::{BLOCKS, NODES};

/// Holds both programs to refusal 10 at a node.
fn overfull(chart: &Chart, node: usize) {
    says(&chart.bytes(), &format!("refused 10 at {node}"));
}

/// The first address of each of so many 16-byte blocks, ascending.
fn ascending(blocks: usize) -> Vec<u64> {
    (0..blocks as u64).map(|block| block * 16).collect()
}

/// The same in an order that goes up and down: 37 is prime, and divides neither the most blocks nor one more.
fn mixed(blocks: usize) -> Vec<u64> {
    (0..blocks as u64).map(|step| step * 37 % blocks as u64 * 16).collect()
}

/// The same, descending.
fn descending(blocks: usize) -> Vec<u64> {
    ascending(blocks).into_iter().rev().collect()
}

#[test]
fn bare_steps_bring_no_block() {
    each(&[1, BLOCKS + 1, NODES], |&nodes| {
        accepts(&Chart::steps(nodes).bytes(), nodes, 0)
    });
}

#[test]
fn the_most_blocks_pass_and_one_more_is_refused_in_any_order() {
    for order in [ascending, descending, mixed] {
        accepts(&Chart::straight(&order(BLOCKS - 1)).bytes(), BLOCKS - 1, BLOCKS - 1);
        accepts(&Chart::straight(&order(BLOCKS)).bytes(), BLOCKS, BLOCKS);
        overfull(&Chart::straight(&order(BLOCKS + 1)), BLOCKS);
    }
}

#[test]
fn blocks_of_nodes_that_no_walk_reaches_count() {
    for order in [ascending, descending, mixed] {
        accepts(&Chart::reads(&order(BLOCKS)).bytes(), BLOCKS, BLOCKS);
        overfull(&Chart::reads(&order(BLOCKS + 1)), BLOCKS);
    }
}

#[test]
fn the_entry_does_not_change_which_node_brings_one_too_many() {
    let mut chart = Chart::straight(&ascending(BLOCKS + 1));
    chart.header.entry = BLOCKS as u64;
    overfull(&chart, BLOCKS);
}

#[test]
fn repeated_blocks_count_once_before_and_after_the_last_that_fits() {
    for order in [ascending, descending, mixed] {
        let addresses = order(BLOCKS).repeat(3);
        accepts(&Chart::straight(&addresses).bytes(), 3 * BLOCKS, BLOCKS);
    }
}

#[test]
fn the_place_is_the_node_of_one_too_many_after_repeats() {
    // below all others, between two of them, and above all
    for new in [0, 0x250, 0xFFFF_FFF0] {
        let mut addresses: Vec<u64> = ascending(BLOCKS).iter().map(|address| 0x100 + 2 * address).collect();
        addresses.extend(addresses.clone());
        addresses.push(new);
        addresses.extend(ascending(BLOCKS));
        overfull(&Chart::straight(&addresses), 2 * BLOCKS);
    }
}

#[test]
fn bare_steps_between_are_passed_over_and_counted_as_nodes() {
    let mut records = Vec::new();
    for address in ascending(BLOCKS + 1) {
        records.push(Record::step());
        records.push(Record::read(address));
    }
    let last = 2 * BLOCKS + 1;
    accepts(&Chart::of(records[..last].to_vec()).bytes(), last, BLOCKS);
    overfull(&Chart::of(records), last);
}

#[test]
fn blocks_after_one_too_many_do_not_move_the_place() {
    overfull(&Chart::straight(&ascending(NODES)), BLOCKS);
    overfull(&Chart::straight(&descending(NODES)), BLOCKS);
}

#[test]
fn the_last_of_the_most_nodes_may_bring_one_too_many() {
    let mut addresses = vec![0; NODES - BLOCKS - 1];
    addresses.extend(ascending(BLOCKS + 1));
    overfull(&Chart::straight(&addresses), NODES - 1);
    addresses[NODES - 1] = 0;
    accepts(&Chart::straight(&addresses).bytes(), NODES, BLOCKS);
}

#[test]
fn reads_and_writes_of_one_block_are_one_block() {
    let records = vec![Record::read(0x20), Record::write(0x20), Record::write(0x2F)];
    accepts(&Chart::of(records).bytes(), 3, 1);
}

#[test]
fn writes_bring_blocks_as_reads_do() {
    let records: Vec<Record> = ascending(BLOCKS + 1).into_iter().map(Record::write).collect();
    accepts(&Chart::of(records[..BLOCKS].to_vec()).bytes(), BLOCKS, BLOCKS);
    overfull(&Chart::of(records), BLOCKS);
}

#[test]
fn a_block_is_as_long_as_a_line() {
    for line in 2..=8 {
        let size = 1 << line;
        let mut chart = Chart::reads(&[0, size - 1, size, 2 * size - 1, 0xFFFF_FFFF, 0x1_0000_0000 - size]);
        chart.header.line = line;
        accepts(&chart.bytes(), 6, 3);
    }
}

#[test]
fn a_reference_over_the_end_of_a_line_brings_two_blocks() {
    for line in 2..=8 {
        let end = 5 << line;
        for (size, bytes) in [(0, 1), (1, 2), (2, 4)] {
            for less in 1..=4 {
                let mut chart = Chart::of(vec![Record::read(end - less).sized(size)]);
                chart.header.line = line;
                accepts(&chart.bytes(), 1, if bytes > less { 2 } else { 1 });
            }
        }
    }
}

/// Reads of so many blocks from block 100 on, then one that begins in this block and goes into the next, then a step.
fn then_both(reads: usize, lower: u64) -> Chart {
    let mut records: Vec<Record> = (0..reads as u64)
        .map(|block| Record::read((100 + block) * 16))
        .collect();
    records.extend([Record::read(lower * 16 + 15).sized(1), Record::step()]);
    Chart::of(records).in_a_row()
}

#[test]
fn one_node_may_bring_the_last_two_blocks_and_is_told_where_the_second_is_one_too_many() {
    accepts(&then_both(BLOCKS - 2, 0).bytes(), BLOCKS, BLOCKS);
    overfull(&then_both(BLOCKS - 1, 0), BLOCKS - 1);
    overfull(&then_both(BLOCKS, 0), BLOCKS);
}

#[test]
fn of_two_blocks_only_the_one_that_is_new_counts() {
    let last = 99 + BLOCKS as u64;
    accepts(&then_both(BLOCKS, 100).bytes(), BLOCKS + 2, BLOCKS);
    accepts(&then_both(BLOCKS - 1, last - 1).bytes(), BLOCKS + 1, BLOCKS);
    accepts(&then_both(BLOCKS - 1, 99).bytes(), BLOCKS + 1, BLOCKS);
    overfull(&then_both(BLOCKS, last), BLOCKS);
    overfull(&then_both(BLOCKS, 99), BLOCKS);
}

#[test]
fn longer_lines_bring_too_many_blocks_back_under_the_limit() {
    let mut chart = Chart::straight(&ascending(BLOCKS + 1));
    chart.header.line = 5;
    accepts(&chart.bytes(), BLOCKS + 1, BLOCKS / 2 + 1);
    chart.header.line = 3;
    overfull(&chart, BLOCKS);
}

#[test]
fn the_number_of_sets_and_ways_does_not_change_the_count() {
    for (sets, ways) in [(0, 1), (0, 8), (8, 1), (8, 8)] {
        let mut chart = Chart::straight(&mixed(BLOCKS + 1));
        (chart.header.sets, chart.header.ways) = (sets, ways);
        overfull(&chart, BLOCKS);
        let mut chart = Chart::straight(&mixed(BLOCKS));
        (chart.header.sets, chart.header.ways) = (sets, ways);
        accepts(&chart.bytes(), BLOCKS, BLOCKS);
    }
}
