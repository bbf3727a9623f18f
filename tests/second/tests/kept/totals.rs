//! What kept touches add to the totals, by hand from rules 10.2 to 10.4: a hit costs 1, a miss 10.

use crate::small::{analysed, first_classes, high, one_set, over, paid, totals, A, B, C, EMPTY, UNKNOWN};
use charts::{Chart, Record};

/// A step that leads to reads of so many nodes, which lead back to it: `blocks` has what each reads.
fn around_a_step(blocks: [u64; 2], ways: u64) -> Chart {
    let [one, other] = blocks.map(|block| Record::read(block).to(0));
    one_set(&[Record::step().to(1).to(2), one, other], ways, EMPTY)
}

#[test]
fn ten_turns_of_the_loop_cost_20_at_the_most() {
    let sample = Chart::sample();
    assert_eq!(totals(&sample, &analysed(&sample), &[1, 1, 1], &[1, 10, 1]), (2, 20));
    assert_eq!(paid(&sample, &[0, 1, 1, 1, 1, 1, 1, 1, 1, 1, 1, 2]), 20);
}

#[test]
fn two_nodes_that_touch_one_block_pay_for_one_miss() {
    let chart = around_a_step([A, A], 2);
    assert_eq!(first_classes(&chart), [4, 5, 5]);
    assert_eq!(high(&chart, &[12, 5, 7]), 12 + 9);
    assert_eq!(paid(&chart, &[0, 1, 0, 2, 0, 1, 0, 2]), 4 + 9);
}

#[test]
fn two_blocks_pay_for_two() {
    let chart = around_a_step([A, B], 2);
    assert_eq!(first_classes(&chart), [4, 5, 5]);
    assert_eq!(high(&chart, &[12, 5, 7]), 12 + 18);
    assert_eq!(paid(&chart, &[0, 1, 0, 2, 0, 1, 0, 2]), 4 + 18);
}

#[test]
fn a_block_pays_if_one_of_its_ceilings_is_above_0() {
    let chart = around_a_step([A, A], 2);
    for (ceilings, expected) in [
        ([9, 0, 0], 0),
        ([9, 1, 0], 10),
        ([9, 0, 1], 10),
        ([9, 1, 1], 11),
        ([0, 65_535, 0], 65_535 + 9),
    ] {
        assert_eq!(high(&chart, &ceilings), expected, "{ceilings:?}");
    }
    let two = around_a_step([A, B], 2);
    assert_eq!(
        [[0, 0, 3], [0, 3, 0], [0, 3, 3]].map(|ceilings| high(&two, &ceilings)),
        [12, 12, 24]
    );
}

#[test]
fn floors_pay_hits_alone() {
    let chart = around_a_step([A, B], 2);
    assert_eq!(totals(&chart, &analysed(&chart), &[9, 5, 7], &[9, 5, 7]), (12, 12 + 18));
}

#[test]
fn a_kept_and_an_unsure_touch_of_one_block_pay_each_its_own() {
    let records = [Record::read(A).to(1).to(2), Record::read(B).to(2), Record::read(A)];
    let chart = one_set(&records, 1, UNKNOWN);
    assert_eq!(first_classes(&chart), [5, 2, 3]);
    assert_eq!(totals(&chart, &analysed(&chart), &[1, 0, 1], &[1, 1, 1]), (2, 30));
    assert_eq!(paid(&chart, &[0, 1, 2]), 30);
    // without the kept touch's ceiling there is no difference to pay beside the unsure one's misses
    assert_eq!(high(&chart, &[0, 0, 4]), 40);
    assert_eq!(high(&chart, &[4, 0, 0]), 13);
}

#[test]
fn a_kept_and_a_hit_touch_of_one_block_pay_one_miss() {
    let chart = one_set(&[Record::read(A).to(1), Record::read(A).to(0)], 2, EMPTY);
    assert_eq!(first_classes(&chart), [5, 1]);
    assert_eq!(high(&chart, &[5, 5]), 10 + 9);
    assert_eq!(high(&chart, &[0, 5]), 5);
    assert_eq!(paid(&chart, &[0, 1, 0, 1, 0, 1, 0, 1, 0, 1]), 10 + 9);
}

#[test]
fn two_touches_of_one_node_pay_for_two_blocks() {
    let chart = one_set(&[over(A).to(0)], 2, EMPTY);
    assert_eq!(analysed(&chart).classes, [5, 5]);
    assert_eq!(high(&chart, &[10]), 20 + 18);
    assert_eq!(paid(&chart, &[0; 10]), 20 + 18);
}

#[test]
fn one_node_that_reads_in_a_loop_pays_one_miss() {
    let chart = one_set(&[Record::read(A).to(0)], 1, EMPTY);
    assert_eq!(totals(&chart, &analysed(&chart), &[1], &[10]), (1, 19));
    assert_eq!(paid(&chart, &[0; 10]), 19);
}

/// Nodes 2 and 3 lead into the loop of node 0, and no walk comes to them.
#[test]
fn a_table_that_marks_what_no_walk_reaches_finds_nothing_touched_there() {
    let records = [
        Record::read(A).to(0).to(1),
        Record::step(),
        Record::read(A).to(3),
        over(B).to(0),
    ];
    let chart = one_set(&records, 2, UNKNOWN);
    let mut loosest = analysed(&chart);
    loosest.marks.fill(1);
    loosest.must.fill(2);
    loosest.may.fill(0);
    let high = |ceilings: [u16; 4]| totals(&chart, &loosest, &[0; 4], &ceilings).1;
    // the set of block a stays empty: node 3 adds nothing to it
    assert_eq!(high([5, 0, 0, 0]), 5 + 9);
    // each touch there is kept, a second one too, and pays once for its block, be that touched by walks or not
    assert_eq!(high([0, 0, 3, 0]), 3 + 9);
    assert_eq!(high([5, 0, 3, 0]), 8 + 9);
    assert_eq!(high([0, 0, 0, 2]), 4 + 18);
    assert_eq!(high([5, 0, 3, 2]), 12 + 27);
    // unless its ages say more: of the first, whose block is kept in the loop too, and of both
    let hits = |nodes: usize| {
        let mut table = loosest.clone();
        table.must[3 * 2..3 * (2 + nodes)].fill(0);
        totals(&chart, &table, &[0; 4], &[5, 0, 3, 2]).1
    };
    assert_eq!((hits(1), hits(2)), (12 + 27, 12 + 9));
}

#[test]
fn blocks_of_three_nodes_in_a_ring_of_as_many_ways() {
    let records = [Record::read(A).to(1), Record::read(B).to(2), Record::read(C).to(0)];
    let ring = |ways| one_set(&records, ways, EMPTY);
    assert_eq!(first_classes(&ring(3)), [5, 5, 5]);
    assert_eq!(high(&ring(3), &[10, 10, 10]), 30 + 27);
    // one way less, and every turn of every block may miss
    assert_eq!(first_classes(&ring(2)), [2, 2, 2]);
    assert_eq!(high(&ring(2), &[10, 10, 10]), 300);
}
