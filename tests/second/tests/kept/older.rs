//! The older rule, which goes by ages with one place more for blocks that may be gone, and a chart for which it is unsafe.
//!
//! By it a block that some walk has brought in has the largest age that it can have; a touch ages the others as must ages do, up to that last
//! place; where walks meet, all blocks of both are there, each with its larger age. A touch is kept if its block is not in the last place.

use crate::small::{first_classes, one_set, paid, read, A, B, C, EMPTY};
use charts::{Chart, Record};
use second::chart;

/// The oldest that each block can be, nothing for one that no walk has brought in.
type Oldest = Vec<Option<u8>>;

fn touch(chart: &chart::Chart, ages: &mut Oldest, m: usize) {
    let gone = chart.ways();
    let h = ages[m].unwrap_or(gone);
    for (block, age) in ages.iter_mut().enumerate() {
        if let Some(age) = age.as_mut().filter(|age| **age < h) {
            *age += u8::from(chart.sets[block] == chart.sets[m]);
        }
    }
    ages[m] = Some(0);
}

/// What each node has on arrival, once nothing changes any more.
fn settled(chart: &chart::Chart) -> Vec<Option<Oldest>> {
    let mut nodes: Vec<Option<Oldest>> = vec![None; chart.nodes.len()];
    nodes[chart.header.entry] = Some(vec![None; chart.blocks.len()]);
    loop {
        let before = nodes.clone();
        for (number, node) in chart.nodes.iter().enumerate() {
            let Some(mut ages) = nodes[number].clone() else {
                continue;
            };
            for m in node.touched() {
                touch(chart, &mut ages, m);
            }
            for &target in node.arrows.targets() {
                let met = nodes[target].get_or_insert_with(|| ages.clone());
                // nothing is less than any age
                met.iter_mut().zip(&ages).for_each(|(met, &age)| *met = (*met).max(age));
            }
        }
        if nodes == before {
            return nodes;
        }
    }
}

/// Whether the older rule calls a node's first touch kept.
fn keeps(chart: &Chart, node: usize) -> bool {
    let chart = read(chart);
    let m = chart.nodes[node].touches[0].expect("it reads");
    let age = settled(&chart)[node].as_ref().expect("it is reached")[m];
    age.is_none_or(|age| age < chart.ways())
}

/// Block a, then b or c, then again b or c, and back.
fn two_of_two(ways: u64) -> Chart {
    let [b, c] = [B, C].map(Record::read);
    let records = [
        Record::read(A).to(1).to(2),
        b.to(3).to(4),
        c.to(3).to(4),
        b.to(0),
        c.to(0),
    ];
    one_set(&records, ways, EMPTY)
}

#[test]
fn the_older_rule_agrees_where_nothing_meets() {
    for (ways, kept) in [(1, false), (2, false), (3, true)] {
        let ring = [Record::read(A).to(1), Record::read(B).to(2), Record::read(C).to(0)];
        assert_eq!(keeps(&one_set(&ring, ways, EMPTY), 0), kept, "{ways} ways");
    }
    assert!(keeps(&Chart::sample(), 1));
}

/// Each second choice finds its block there already by one of the two first ones, and so does not age block a. But a walk may have made the
/// other one, and then it is the second block that comes.
#[test]
fn the_older_rule_calls_a_touch_kept_that_misses_in_every_turn() {
    let chart = two_of_two(2);
    assert!(keeps(&chart, 0));
    assert_eq!(first_classes(&chart)[0], 3);
    // a, b, c, and so on: none of the fifteen touches hits
    let turns = [0, 1, 4].repeat(5);
    assert_eq!(paid(&chart, &turns), 15 * 10);
    // with a way more each block misses once, and both rules say so
    assert!(keeps(&two_of_two(3), 0));
    assert_eq!(first_classes(&two_of_two(3))[0], 5);
    assert_eq!(paid(&two_of_two(3), &turns), 15 + 3 * 9);
}
