//! Which touches are kept, by hand from section 16 of the rules and rule 8.1.

use crate::small::{analysed, first_classes, one_set, over, read, A, B, C, D, EMPTY, UNKNOWN};
use charts::{Chart, Record};
use second::one_block::OneBlock;
use second::since::Since;

/// What a node has of a block, by its place in the list, and the others by their places.
fn since(chart: &Chart, node: usize, block: usize) -> Option<(bool, Vec<usize>)> {
    let Since { touched, others } = OneBlock::settled(&read(chart), block).nodes[node]?;
    Some((touched, (0..64).filter(|place| others >> place & 1 == 1).collect()))
}

#[test]
fn the_sample_is_kept_where_it_loops() {
    assert_eq!(analysed(&Chart::sample()).classes, [4, 4, 5, 4, 1, 4]);
    assert_eq!(since(&Chart::sample(), 0, 0), Some((false, vec![])));
    assert_eq!(since(&Chart::sample(), 1, 0), Some((true, vec![])));
}

#[test]
fn a_touch_empties_its_own_set_and_is_added_to_those_of_touched_blocks_alone() {
    let chart = Chart::straight(&[A, B, C, A, D, A]);
    let of_a = [0, 1, 2, 3, 4, 5].map(|node| since(&chart, node, 0).expect("it is reached"));
    let lists = [vec![], vec![], vec![1], vec![1, 2], vec![], vec![3]];
    assert_eq!(of_a.clone().map(|held| held.1), lists);
    assert_eq!(of_a.map(|held| held.0), [false, true, true, true, true, true]);
    // block d is touched by node 4 at first: what came before that is in no set of it
    assert_eq!(since(&chart, 4, 3), Some((false, vec![])));
    assert_eq!(since(&chart, 5, 3), Some((true, vec![])));
}

#[test]
fn blocks_of_other_sets_are_in_no_set() {
    // blocks 0 and 2 share set 0, blocks 1 and 3 set 1
    let chart = Chart::straight(&[A, B, C, D, A]).shaped(1, 2, UNKNOWN);
    assert_eq!(since(&chart, 4, 0), Some((true, vec![2])));
    assert_eq!(since(&chart, 4, 1), Some((true, vec![3])));
}

#[test]
fn as_many_members_as_ways_are_too_many_and_one_less_is_not() {
    for ways in 1..=8 {
        // a ring of block a and so many others
        let first = |others: u64| {
            let records: Vec<Record> = (0..=others)
                .map(|node| Record::read(16 * node).to((node + 1) % (others + 1)))
                .collect();
            let chart = one_set(&records, ways, UNKNOWN);
            let (_, members) = since(&chart, 0, 0).expect("it is the entry");
            assert_eq!(members.len() as u64, others);
            first_classes(&chart)[0]
        };
        assert_eq!(first(ways - 1), 5, "{ways} ways");
        assert_eq!(first(ways), 3, "{ways} ways");
    }
}

#[test]
fn hit_and_miss_go_before_kept() {
    // nothing has touched either block, and from empty both miss; the third touch finds one other block and hits
    assert_eq!(
        first_classes(&Chart::straight(&[A, B, A]).shaped(0, 2, EMPTY)),
        [2, 2, 1]
    );
    assert_eq!(
        first_classes(&Chart::straight(&[A, B, A]).shaped(0, 2, UNKNOWN)),
        [5, 5, 1]
    );
    assert_eq!(
        first_classes(&Chart::straight(&[A, B, A]).shaped(0, 1, UNKNOWN)),
        [5, 2, 2]
    );
}

#[test]
fn a_kept_touch_and_an_unsure_one_of_the_same_block() {
    // one way: block b throws a out, and may be passed by
    let records = [Record::read(A).to(1).to(2), Record::read(B).to(2), Record::read(A)];
    assert_eq!(first_classes(&one_set(&records, 1, UNKNOWN)), [5, 2, 3]);
}

#[test]
fn where_walks_meet_the_side_with_more_members_decides() {
    // by nodes 1 and 2, which read, and by node 3, a step, to node 4, be the one or the other met first
    let reads = [Record::read(B).to(2), Record::read(C).to(4)];
    for entry in [Record::read(A).to(1).to(3), Record::read(A).to(3).to(1)] {
        let records = [entry, reads[0], reads[1], Record::step().to(4), Record::read(A)];
        let chart = one_set(&records, 2, UNKNOWN);
        assert_eq!(since(&chart, 4, 0), Some((true, vec![1, 2])));
        assert_eq!(first_classes(&chart)[4], 3);
    }
    // the same with the step before the reads in the order of the nodes
    let records = [
        Record::read(A).to(1).to(2),
        Record::step().to(4),
        Record::read(B).to(3),
        Record::read(C).to(4),
        Record::read(A),
    ];
    assert_eq!(first_classes(&one_set(&records, 2, UNKNOWN))[4], 3);
}

#[test]
fn where_walks_meet_members_of_both_sides_count() {
    // each turn reads one other block, and not always the same one
    let records = [
        Record::read(A).to(1).to(2),
        Record::read(B).to(0),
        Record::read(C).to(0),
    ];
    let chart = one_set(&records, 2, EMPTY);
    assert_eq!(since(&chart, 0, 0), Some((true, vec![1, 2])));
    assert_eq!(first_classes(&chart)[0], 3);
    assert_eq!(first_classes(&one_set(&records, 3, EMPTY)), [5, 5, 5]);
}

#[test]
fn where_walks_meet_one_that_has_touched_the_block_is_enough() {
    // only the walk by node 1 has touched block a before node 3 reads b
    let records = [
        Record::step().to(1).to(2),
        Record::read(A).to(3),
        Record::step().to(3),
        Record::read(B).to(4),
        Record::read(A),
    ];
    let chart = one_set(&records, 1, UNKNOWN);
    assert_eq!(since(&chart, 3, 0), Some((true, vec![])));
    assert_eq!(since(&chart, 4, 0), Some((true, vec![1])));
}

#[test]
fn one_node() {
    let read_alone = |start| first_classes(&one_set(&[Record::read(A)], 2, start));
    assert_eq!((read_alone(UNKNOWN), read_alone(EMPTY)), (vec![5], vec![2]));
    let loops = |start| first_classes(&one_set(&[Record::read(A).to(0)], 1, start));
    assert_eq!((loops(UNKNOWN), loops(EMPTY)), (vec![5], vec![5]));
    assert_eq!(first_classes(&one_set(&[Record::step().to(0)], 1, UNKNOWN)), [4]);
    // with one way each of its two blocks throws the other out
    let both = |ways, start| analysed(&one_set(&[over(A).to(0)], ways, start)).classes;
    assert_eq!((both(1, UNKNOWN), both(1, EMPTY)), (vec![3, 2], vec![2, 2]));
    assert_eq!((both(2, UNKNOWN), both(2, EMPTY)), (vec![5, 5], vec![5, 5]));
}

#[test]
fn a_second_touch_sees_the_first() {
    // the entry, node 2, touches b and then c; node 0 reads c, and on one of two ways back a is read too
    let shaped = |sets, ways| {
        let records = vec![Record::read(C).to(1).to(2), Record::read(A).to(2), over(B).to(0)];
        let mut chart = Chart::of(records).shaped(sets, ways, UNKNOWN);
        chart.header.entry = 2;
        chart
    };
    // on arrival a is in the set of c, with the first touch b is too
    assert_eq!(since(&shaped(0, 2), 2, 2), Some((true, vec![0])));
    assert_eq!(analysed(&shaped(0, 2)).classes[4..], [3, 3]);
    assert_eq!(analysed(&shaped(0, 3)).classes[4..], [5, 5]);
    // of two sets b has one for itself, and is not in that of c
    assert_eq!(since(&shaped(1, 2), 2, 2), Some((true, vec![0])));
    assert_eq!(analysed(&shaped(1, 2)).classes[4..], [5, 5]);
}

#[test]
fn a_second_touch_empties_its_own_set_last() {
    // node 0 touches a and then b: at node 1 the set of a has b, that of b nothing
    let chart = one_set(&[over(A).to(1), Record::step().to(0)], 2, UNKNOWN);
    assert_eq!(since(&chart, 1, 0), Some((true, vec![1])));
    assert_eq!(since(&chart, 1, 1), Some((true, vec![])));
}

#[test]
fn what_no_walk_reaches_is_in_no_set() {
    // nodes 2 and 3 read a and then b, and lead to the entry
    let records = [
        Record::read(A).to(0).to(1),
        Record::step(),
        Record::read(A).to(3),
        Record::read(B).to(0),
    ];
    let chart = one_set(&records, 1, UNKNOWN);
    assert_eq!(since(&chart, 0, 0), Some((true, vec![])));
    assert_eq!([2, 3].map(|node| since(&chart, node, 0)), [None, None]);
    assert_eq!(first_classes(&chart), [5, 4, 0, 0]);
}
