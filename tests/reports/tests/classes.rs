//! Each word of a report, of a first touch and of a second, and that the first class that applies is the one printed.

use charts::{Chart, Record};
use reports::hold::{agrees, says};
use reports::program::run;
use second::limits::{NODES, WAYS};

/// The report of one node that makes no second touch, under the sample's header.
fn one(record: Record, start: u64, word: &str) {
    let blocks = usize::from(record.kind != 0);
    let chart = Chart::of(vec![record]).shaped(0, 2, start);
    says(
        &chart.bytes(),
        &format!("nodes 1 blocks {blocks} passes 1\n0 {word} none"),
    );
}

#[test]
fn a_bare_step_is_none() {
    one(Record::step(), 0, "none");
    one(Record::step(), 1, "none");
}

#[test]
fn a_first_read_of_an_empty_cache_is_a_miss() {
    one(Record::read(0), 1, "miss");
    one(Record::write(0), 1, "miss");
}

#[test]
fn a_first_read_of_an_unknown_cache_is_kept() {
    one(Record::read(0), 0, "kept");
    one(Record::write(0), 0, "kept");
}

#[test]
fn a_second_read_is_a_hit() {
    let chart = Chart::straight(&[0x00, 0x0F]);
    says(&chart.bytes(), "nodes 2 blocks 1 passes 2\n0 miss none\n1 hit none");
}

#[test]
fn a_node_without_a_walk_to_it_is_unreached_be_it_a_step_or_a_reference() {
    let chart = Chart::of(vec![Record::step(), Record::step(), Record::read(0)]);
    says(
        &chart.bytes(),
        "nodes 3 blocks 1 passes 1\n0 none none\n1 unreached unreached\n2 unreached unreached",
    );
}

#[test]
fn a_node_that_only_unreached_nodes_lead_to_is_unreached() {
    let chart = Chart::of(vec![
        Record::read(0),
        Record::read(0).to(0).to(2),
        Record::read(0).to(1),
    ]);
    says(
        &chart.bytes(),
        "nodes 3 blocks 1 passes 1\n0 miss none\n1 unreached unreached\n2 unreached unreached",
    );
}

#[test]
fn an_entry_with_an_arrow_into_it_still_meets_the_start() {
    let chart = Chart::of(vec![Record::read(0).to(0)]);
    says(&chart.bytes(), "nodes 1 blocks 1 passes 2\n0 kept none");
}

#[test]
fn all_words_stand_in_one_report() {
    let chart = Chart::of(vec![
        Record::read(0x00).to(1),
        Record::read(0x00).to(2).to(3),
        Record::read(0x10).to(3),
        Record::read(0x10).to(4).to(5),
        Record::read(0x20).to(5),
        Record::read(0x00).to(6),
        Record::step(),
        Record::read(0x30),
    ]);
    // in one set of two ways: by node 2 block 1 is there, and stays; by node 4 block 0 is pushed out
    says(
        &chart.bytes(),
        "nodes 8 blocks 4 passes 2\n0 miss none\n1 hit none\n2 miss none\n3 kept none\n4 miss none\n5 unsure none\n\
         6 none none\n7 unreached unreached",
    );
}

#[test]
fn all_words_of_a_second_touch_stand_in_one_report() {
    let both = Record::read(0x0E).sized(2);
    let other = Record::read(0x8E).sized(2);
    let chart = Chart::of(vec![
        both.to(1),
        both.to(2).to(3),
        Record::read(0x30).to(3),
        both.to(4),
        Record::read(0x0E).sized(1).to(5).to(6),
        other.to(6),
        other,
        both,
    ]);
    // in one set of two ways: by node 2 block 0 is pushed out, and then by the first touch of node 3 block 1; what node 5 brings in stays
    says(
        &chart.bytes(),
        "nodes 8 blocks 5 passes 2\n0 miss miss\n1 hit hit\n2 miss none\n3 unsure unsure\n4 hit none\n5 miss miss\n6 kept kept\n\
         7 unreached unreached",
    );
}

#[test]
fn the_first_touch_is_of_the_lower_block_and_the_second_class_goes_by_the_state_after_it() {
    let both = Record::read(0x0E).sized(2);
    let chart = Chart::of(vec![both, both, Record::read(0x10)]).in_a_row();
    // with one way the block that is touched last is there, and the first touch of node 1 takes it away before the second
    says(
        &chart.clone().shaped(0, 1, 1).bytes(),
        "nodes 3 blocks 2 passes 2\n0 miss miss\n1 miss miss\n2 hit none",
    );
    says(
        &chart.shaped(0, 1, 0).bytes(),
        "nodes 3 blocks 2 passes 2\n0 kept miss\n1 miss miss\n2 hit none",
    );
}

/// A read that leads to so many other reads in a row, which lead back to it, and to a step that does so too, in one set.
fn round(others: u64, ways: u64) -> Vec<u8> {
    let mut records = vec![Record::read(0x00).to(1).to(others + 1)];
    records.extend((1..=others).map(|other| Record::read(0x10 * other).to((other + 1) % (others + 1))));
    records.push(Record::step().to(0));
    Chart::of(records).shaped(0, ways, 1).bytes()
}

#[test]
fn a_block_stays_if_fewer_others_than_ways_are_touched_in_between() {
    for ways in 1..=WAYS as u64 {
        for (others, word) in [(ways, "unsure"), (ways - 1, "kept")] {
            if others > 0 {
                let chart = round(others, ways);
                agrees(&chart);
                let report = run(&chart);
                let line = format!("0 {word} none");
                assert_eq!(
                    report.lines().nth(1),
                    Some(line.as_str()),
                    "{others} others, {ways} ways"
                );
            }
        }
    }
}

#[test]
fn lines_of_other_sets_push_nothing_out() {
    // a ring of three reads, of one set with one way, and then of two sets
    let ring = vec![
        Record::read(0x00).to(1),
        Record::read(0x10).to(2),
        Record::read(0x30).to(0),
    ];
    says(
        &Chart::of(ring.clone()).shaped(0, 1, 1).bytes(),
        "nodes 3 blocks 3 passes 2\n0 miss none\n1 miss none\n2 miss none",
    );
    says(
        &Chart::of(ring).shaped(1, 1, 1).bytes(),
        "nodes 3 blocks 3 passes 3\n0 kept none\n1 miss none\n2 miss none",
    );
}

#[test]
fn blocks_in_neighbouring_sets_and_around_the_end_do_not_come_into_each_others_way() {
    let over = |end: u64| Record::read(end - 2).sized(2);
    let chart = Chart::of(vec![over(0x10), over(0x10), over(0x20), over(0x10)]).in_a_row();
    // block 2 is of set 0, as block 0 is
    says(
        &chart.shaped(1, 1, 1).bytes(),
        "nodes 4 blocks 3 passes 2\n0 miss miss\n1 hit hit\n2 hit miss\n3 miss hit",
    );
}

#[test]
fn a_node_number_has_as_many_digits_as_it_needs() {
    let lines: String = (1..NODES).map(|node| format!("\n{node} unreached unreached")).collect();
    says(
        &Chart::steps(NODES).bytes(),
        &format!("nodes {NODES} blocks 0 passes 1\n0 none none{lines}"),
    );
}
