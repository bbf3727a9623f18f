//! Both sides of each of the totals' refusals from 11 on, and the places they name.

mod question;

use question::{after, Question, BLOCKS, NODES};
use second::cache::Costs;
use second::refusal::Refusal;
use second::totals::Totals;

/// What the question's totals are as long as nothing that adds to them changes.
const SAME: Result<Totals, Refusal> = Ok(Totals { low: 2, high: 20 });

/// The answer with these floors and ceilings.
fn bounded(floors: [u16; NODES], ceilings: [u16; NODES]) -> Result<Totals, Refusal> {
    after(|question| {
        question.floors = floors.to_vec();
        question.ceilings = ceilings.to_vec();
    })
}

#[test]
fn a_table_buffer_one_too_short_is_refusal_11() {
    let lengths: [fn(&mut Question, usize); 3] = [
        |question, less| question.table.must.resize(NODES * BLOCKS - less, 0),
        |question, less| question.table.may.resize(NODES * BLOCKS - less, 0),
        |question, less| question.table.marks.resize(NODES - less, 0),
    ];
    for length in lengths {
        assert_eq!(after(|question| length(question, 0)), SAME);
        assert_eq!(after(|question| length(question, 1)), Err(Refusal::of(11)));
    }
    let none = after(|question| {
        question.table.must.clear();
        question.table.may.clear();
        question.table.marks.clear();
    });
    assert_eq!(none, Err(Refusal::of(11)));
}

#[test]
fn a_table_that_does_not_pass_is_refusal_13() {
    let changes: [fn(&mut Question); 6] = [
        |question| question.table.marks[4] = 2,
        |question| question.table.marks[0] = 0,
        |question| question.table.must[5] = 3,
        |question| question.table.may[0] = 255,
        |question| question.table.may[4] = 1,
        |question| question.table.must[NODES * BLOCKS - 1] = 1,
    ];
    for (number, change) in changes.into_iter().enumerate() {
        assert_eq!(after(change), Err(Refusal::of(13)), "change {number}");
    }
}

#[test]
fn floors_and_ceilings_of_any_length_but_the_nodes_are_refusal_14() {
    let lengths = [0, 1, NODES - 1, NODES, NODES + 1, 2 * NODES];
    for floors in lengths {
        for ceilings in lengths {
            let answer = after(|question| {
                question.floors.resize(floors, 0);
                question.ceilings.resize(ceilings, 0);
            });
            let fits = floors == NODES && ceilings == NODES;
            let expected = if fits { SAME } else { Err(Refusal::of(14)) };
            assert_eq!(answer, expected, "{floors} floors and {ceilings} ceilings");
        }
    }
}

#[test]
fn a_miss_cost_one_below_the_hit_cost_is_refusal_15() {
    let with = |hit, miss| after(|question| question.costs = Costs { hit, miss });
    assert!(with(10, 10).is_ok() && with(10, 11).is_ok() && with(0, 0).is_ok() && with(0, 65_535).is_ok());
    for (hit, miss) in [(10, 9), (1, 0), (65_535, 65_534), (65_535, 0), (256, 255)] {
        assert_eq!(with(hit, miss), Err(Refusal::of(15)), "{hit} and {miss}");
    }
}

#[test]
fn a_floor_one_above_its_ceiling_is_refusal_16_at_the_first_such_node() {
    assert!(bounded([1, 10, 1, 0, 0, 0], [1, 10, 1, 0, 0, 0]).is_ok());
    assert!(bounded([65_535, 0, 0, 0, 0, 0], [65_535, 0, 0, 0, 0, 0]).is_ok());
    assert_eq!(
        bounded([2, 1, 1, 0, 0, 0], [1, 10, 1, 0, 0, 0]),
        Err(Refusal::at(16, 0))
    );
    assert_eq!(
        bounded([1, 11, 2, 0, 0, 0], [1, 10, 1, 0, 0, 0]),
        Err(Refusal::at(16, 1))
    );
    assert_eq!(
        bounded([1, 10, 2, 0, 0, 0], [1, 10, 1, 0, 0, 0]),
        Err(Refusal::at(16, 2))
    );
    assert_eq!(
        bounded([0, 0, 0, 0, 0, 256], [1, 1, 1, 1, 1, 255]),
        Err(Refusal::at(16, 5))
    );
}

#[test]
fn a_floor_above_0_without_a_mark_is_refusal_17_at_the_first_such_node() {
    for (floors, place) in [
        ([1, 1, 1, 1, 0, 0], 3),
        ([1, 1, 1, 1, 1, 1], 3),
        ([1, 1, 1, 0, 1, 0], 4),
        ([0, 0, 0, 0, 1, 1], 4),
        ([0, 0, 0, 0, 0, 1], 5),
    ] {
        assert_eq!(
            bounded(floors, [65_535; NODES]),
            Err(Refusal::at(17, place)),
            "{floors:?}"
        );
    }
}

#[test]
fn a_floor_above_its_ceiling_goes_before_an_earlier_unmarked_node() {
    assert_eq!(
        bounded([1, 1, 1, 1, 0, 2], [1, 10, 1, 1, 0, 1]),
        Err(Refusal::at(16, 5))
    );
}

#[test]
fn a_ceiling_above_0_without_a_mark_is_no_fault_and_adds_nothing() {
    for ceiling in [0, 1, 65_535] {
        assert_eq!(bounded([1, 1, 1, 0, 0, 0], [1, 10, 1, ceiling, ceiling, ceiling]), SAME);
    }
}
