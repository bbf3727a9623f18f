//! Each table of one block that is worked out passes, and is the tightest.

use crate::drawn::charts;
use crate::equations::{at_least, lower, passes};
use crate::small::{one_set, read as read_chart};
use charts::Record;
use second::chart::Chart;
use second::limits::BLOCKS;
use second::one_block::OneBlock;
use second::since::Since;

/// The table of each block, by the block's place.
fn tables(chart: &Chart) -> impl Iterator<Item = (usize, Vec<Option<Since>>)> + '_ {
    (0..chart.blocks.len()).map(|block| (block, OneBlock::settled(chart, block).nodes))
}

#[test]
fn each_table_passes_and_not_one_entry_can_be_lower() {
    let (mut touched, mut members) = (0, 0);
    for chart in charts(31, 400, 60) {
        for (block, mut nodes) in tables(&chart) {
            assert!(passes(&chart, block, &nodes));
            for node in 0..nodes.len() {
                let Some(since) = nodes[node] else { continue };
                for less in lower(since) {
                    nodes[node] = less;
                    assert!(!passes(&chart, block, &nodes), "{less:?} at node {node} for {since:?}");
                }
                nodes[node] = Some(since);
                touched += usize::from(since.touched);
                members += since.members();
            }
        }
    }
    assert!(
        touched > 30_000 && members > 30_000,
        "only {touched} and {members} were lowered"
    );
}

/// Everything that a node can have of a block: nothing, or any set of the chart's blocks with the block touched or not.
fn everything(blocks: usize) -> Vec<Option<Since>> {
    let sets = [false, true].map(|touched| (0..1 << blocks).map(move |others| Some(Since { touched, others })));
    std::iter::once(None).chain(sets.into_iter().flatten()).collect()
}

/// Every table of a block of very small charts: each that passes has at least what the one has that was worked out.
#[test]
fn no_table_that_passes_has_less_anywhere() {
    let (mut passed, mut failed) = (0, 0);
    for chart in charts(32, 4_000, 3).filter(|chart| chart.blocks.len() <= 2) {
        let all = everything(chart.blocks.len());
        for (block, tightest) in tables(&chart) {
            let mut digits = vec![0; tightest.len()];
            loop {
                let nodes: Vec<Option<Since>> = digits.iter().map(|&digit: &usize| all[digit]).collect();
                let passes = passes(&chart, block, &nodes);
                assert!(!passes || at_least(&nodes, &tightest), "{nodes:?} and {tightest:?}");
                passed += usize::from(passes);
                failed += usize::from(!passes);
                let Some(place) = digits.iter().position(|&digit| digit + 1 < all.len()) else {
                    break;
                };
                digits[place] += 1;
                digits[..place].fill(0);
            }
        }
    }
    assert!(
        passed > 10_000 && failed > 10_000,
        "{passed} passed and {failed} did not"
    );
}

#[test]
fn each_of_the_most_blocks_is_in_the_sets_of_all_others() {
    let read = |block: u64| Record::read(16 * block).to((block + 1) % BLOCKS as u64);
    let records: Vec<Record> = (0..BLOCKS as u64).map(read).collect();
    let chart = read_chart(&one_set(&records, 8, 1));
    for (block, nodes) in tables(&chart) {
        // on arrival at its own node all others were touched since
        let all_others = Since {
            touched: true,
            others: !(1 << block),
        };
        assert_eq!(nodes[block], Some(all_others));
        assert_eq!(all_others.members(), BLOCKS - 1);
    }
}

#[test]
fn no_block_is_in_its_own_set_and_none_of_another_cache_set_is() {
    let mut fullest = 0;
    for chart in charts(33, 400, 200) {
        for (block, nodes) in tables(&chart) {
            for since in nodes.into_iter().flatten() {
                let others = (0..64).filter(|place| since.others >> place & 1 == 1);
                for other in others {
                    assert!(other != block && since.touched && chart.sets[other] == chart.sets[block]);
                }
                fullest = fullest.max(since.members());
            }
        }
    }
    assert!(fullest > 16, "no set has more than {fullest} members");
}
