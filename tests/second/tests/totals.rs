//! The totals: the example of section 10 of the rules, what each class adds, and the largest sum.

use charts::{Chart, Record};
use second::analysis::Analysed;
use second::cache::Costs;
use second::lending::Lending;
use second::limits::{CLASSES, NODES, PASSES};
use second::totals::{Bounds, Totals};

const COSTS: Costs = Costs { hit: 1, miss: 10 };

/// The table of the analysis.
fn settled(chart: &[u8]) -> Lending {
    let mut lending = Lending::largest();
    assert!(matches!(lending.analyse(chart, PASSES), Analysed::Settled { .. }));
    lending
}

/// The totals of a chart under a table, which are not refused.
fn totals(chart: &[u8], table: &Lending, costs: Costs, floors: &[u16], ceilings: &[u16]) -> (u64, u64) {
    let Totals { low, high } = table
        .totals(chart, costs, Bounds { floors, ceilings })
        .expect("nothing is refused");
    (low, high)
}

/// The totals of the sample after a change of its table, with that example's costs, floors and ceilings.
fn sounded(change: impl Fn(&mut Lending)) -> (u64, u64) {
    let chart = Chart::sample().bytes();
    let mut table = settled(&chart);
    change(&mut table);
    totals(&chart, &table, COSTS, &[1, 1, 1], &[1, 10, 1])
}

/// A chart with a node of each class: a miss, a hit, a step, a kept read that loops on itself, a read that a step leads past, then an unsure
/// read, and one that is not reached.
fn classes() -> Vec<u8> {
    let chart = Chart::of(vec![
        Record::read(0x00).to(1),
        Record::read(0x00).to(2),
        Record::step().to(3),
        Record::read(0x10).to(3).to(4),
        Record::step().to(5).to(6),
        Record::read(0x20).to(6),
        Record::read(0x00),
        Record::read(0x30),
    ]);
    assert_eq!(
        settled(&chart.bytes()).classes[..16],
        [2, 4, 1, 4, 4, 4, 5, 4, 4, 4, 2, 4, 3, 4, 0, 0]
    );
    chart.bytes()
}

#[test]
fn the_loop_chart_has_totals_2_and_20() {
    assert_eq!(sounded(|_| ()), (2, 20));
}

#[test]
fn each_class_adds_its_own() {
    let chart = classes();
    let table = settled(&chart);
    let costs = Costs { hit: 3, miss: 7 };
    let alone = |node: usize| {
        let (mut floors, mut ceilings) = ([0; 8], [0; 8]);
        // no walk reaches node 7, so that its floor is 0
        floors[node] = if node == 7 { 0 } else { 100 };
        ceilings[node] = 1_000;
        totals(&chart, &table, costs, &floors, &ceilings)
    };
    let (miss, hit, none) = ((700, 7_000), (300, 3_000), (0, 0));
    let (kept, unsure) = ((300, 3_004), (300, 7_000));
    let each = [miss, hit, none, kept, none, miss, unsure, none];
    assert_eq!([0, 1, 2, 3, 4, 5, 6, 7].map(alone), each);
    let (floors, ceilings) = ([1, 2, 3, 4, 5, 6, 7, 0], [10, 20, 30, 40, 50, 60, 70, 80]);
    let sum = totals(&chart, &table, costs, &floors, &ceilings);
    let low = 7 + 2 * 3 + 4 * 3 + 6 * 7 + 7 * 3;
    let high = 10 * 7 + 20 * 3 + (40 * 3 + 4) + 60 * 7 + 70 * 7;
    assert_eq!(sum, (low, high));
}

#[test]
fn a_floor_equal_to_its_ceiling_passes() {
    let chart = Chart::sample().bytes();
    assert_eq!(
        totals(&chart, &settled(&chart), COSTS, &[1, 10, 1], &[1, 10, 1]),
        (11, 20)
    );
    assert_eq!(totals(&chart, &settled(&chart), COSTS, &[0; 3], &[0; 3]), (0, 0));
}

#[test]
fn a_miss_cost_equal_to_the_hit_cost_passes() {
    let chart = Chart::sample().bytes();
    let both = |cost| Costs { hit: cost, miss: cost };
    assert_eq!(
        totals(&chart, &settled(&chart), both(5), &[1, 1, 1], &[1, 10, 1]),
        (10, 55)
    );
    assert_eq!(
        totals(&chart, &settled(&chart), both(0), &[1, 1, 1], &[1, 10, 1]),
        (0, 0)
    );
}

#[test]
fn tails_are_not_looked_at() {
    let garbage = sounded(|table| {
        table.must[3..].fill(200);
        table.may[3..].fill(200);
        table.marks[3..].fill(200);
    });
    let exact = sounded(|table| {
        table.must.truncate(3);
        table.may.truncate(3);
        table.marks.truncate(3);
    });
    assert_eq!((garbage, exact), ((2, 20), (2, 20)));
}

#[test]
fn the_block_list_and_the_classes_are_no_part_of_the_table() {
    let without = sounded(|table| {
        table.blocks.clear();
        table.classes.clear();
    });
    assert_eq!(without, (2, 20));
}

#[test]
fn a_passing_table_that_is_not_the_tightest_has_its_own_totals() {
    // the last read is kept as well then, and its block is paid for already
    assert_eq!(sounded(|table| table.must[2] = 2), (2, 20));
    assert_eq!(sounded(|table| table.may[..3].fill(0)), (2, 20));
    let chart = Chart::straight(&[0x00, 0x10, 0x00]).bytes();
    let tightest = settled(&chart);
    let mut loosest = tightest.clone();
    loosest.must[..6].fill(2);
    loosest.may[..6].fill(0);
    assert_eq!(totals(&chart, &tightest, COSTS, &[1; 3], &[1; 3]), (21, 21));
    assert_eq!(totals(&chart, &loosest, COSTS, &[1; 3], &[1; 3]), (3, 21));
    // what the tightest calls a miss is kept in the loosest, and pays for one
    assert_eq!(totals(&chart, &tightest, COSTS, &[0; 3], &[9; 3]), (0, 189));
    assert_eq!(totals(&chart, &loosest, COSTS, &[0; 3], &[9; 3]), (0, 45));
}

#[test]
fn a_node_that_a_table_marks_adds_though_no_walk_reaches_it() {
    let chart = classes();
    let mut table = settled(&chart);
    let blocks = 4;
    table.marks[7] = 1;
    table.must[7 * blocks..8 * blocks].fill(2);
    table.may[7 * blocks..8 * blocks].fill(0);
    let (floors, ceilings) = ([0, 0, 0, 0, 0, 0, 0, 4], [0, 0, 0, 0, 0, 0, 0, 6]);
    // nothing is touched there, so that its read is kept
    assert_eq!(totals(&chart, &table, COSTS, &floors, &ceilings), (4, 6 + 9));
}

#[test]
fn the_largest_sum_is_exact() {
    let costs = Costs {
        hit: 65_535,
        miss: 65_535,
    };
    let most = [65_535; NODES];
    let largest = CLASSES as u64 * 65_535 * 65_535;
    let straddling = Chart::of(vec![Record::read(0x0E).sized(2); NODES]).in_a_row();
    let hits = straddling.clone().bytes();
    assert_eq!(totals(&hits, &settled(&hits), costs, &most, &most), (largest, largest));
    let misses = straddling.shaped(0, 1, 1).bytes();
    let costs = Costs { hit: 0, miss: 65_535 };
    assert_eq!(
        totals(&misses, &settled(&misses), costs, &most, &most),
        (largest, largest)
    );
}
