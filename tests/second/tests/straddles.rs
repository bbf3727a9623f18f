//! References that go over the end of a line, with numbers worked out by hand from rules 3.3, 4.3, 6.3, 6.4 and 8.2. Lines have 16 bytes.

use charts::{Chart, Record};
use second::cache::{cost, Cache, Costs};
use second::chart;
use second::lending::Lending;
use second::limits::PASSES;
use second::totals::{Bounds, Totals};

const UNKNOWN: u64 = 0;
const EMPTY: u64 = 1;

/// A read of four bytes.
fn four(address: u64) -> Record {
    Record::read(address).sized(2)
}

/// What the analysis leaves of records in a row, in 2^`sets` sets of so many ways.
fn analysed(records: &[Record], sets: u64, ways: u64, start: u64) -> Lending {
    let chart = Chart::of(records.to_vec()).in_a_row().shaped(sets, ways, start).bytes();
    Lending::analysed(&chart, &chart::Chart::read(&chart).expect("the chart is accepted"))
}

fn classes(records: &[Record], sets: u64, ways: u64, start: u64) -> Vec<u8> {
    analysed(records, sets, ways, start).classes
}

/// The plain machine's hits and misses along records in a row, from an empty cache.
fn hits(records: &[Record], sets: u64, ways: u64) -> Vec<bool> {
    let bytes = Chart::of(records.to_vec()).in_a_row().shaped(sets, ways, EMPTY).bytes();
    let chart = chart::Chart::read(&bytes).expect("the chart is accepted");
    let mut cache = Cache::empty(chart.header.geometry);
    let nodes = 0..records.len();
    nodes.flat_map(|node| cache.visit(&chart, node)).flatten().collect()
}

#[test]
fn both_blocks_in_one_set_that_has_room_for_two() {
    let records = [four(0x0E), Record::read(0x00), four(0x1E), Record::read(0x00)];
    let lending = analysed(&records, 0, 2, EMPTY);
    assert_eq!(lending.blocks, [0, 1, 2]);
    // after 0x0E block 0 is one older than block 1; then 0x00 is the youngest; then 0x1E leaves 2 1, and block 0 is gone
    let ages = [2, 2, 2, 1, 0, 2, 0, 1, 2, 2, 1, 0];
    assert_eq!((&lending.must[..], &lending.may[..]), (&ages[..], &ages[..]));
    assert_eq!(lending.classes, [2, 2, 1, 4, 1, 2, 2, 4]);
    // whatever was there before, two touches fill the two ways
    assert_eq!(classes(&records, 0, 2, UNKNOWN), [5, 5, 1, 4, 1, 2, 2, 4]);
    assert_eq!(hits(&records, 0, 2), [false, false, true, true, false, false]);
}

#[test]
fn with_one_way_the_second_touch_throws_the_first_block_out() {
    let records = [four(0x0E), four(0x0E), Record::read(0x10), Record::read(0x0E)];
    // on arrival at node 1 block 1 is there; its first touch, of block 0, takes it away
    assert_eq!(classes(&records, 0, 1, EMPTY), [2, 2, 2, 2, 1, 4, 2, 4]);
    assert_eq!(classes(&records, 0, 1, UNKNOWN), [5, 2, 2, 2, 1, 4, 2, 4]);
    assert_eq!(hits(&records, 0, 1), [false, false, false, false, true, false]);
}

#[test]
fn neighbouring_sets_and_from_the_last_set_to_set_0() {
    // 0x0E touches block 0 of set 0 and block 1 of set 1; 0x1E block 1 and then block 2, which is of set 0 again and throws block 0 out
    let records = [four(0x0E), four(0x0E), four(0x1E), four(0x0E)];
    let lending = analysed(&records, 1, 1, EMPTY);
    let ages = [1, 1, 1, 0, 0, 1, 0, 0, 1, 1, 0, 0];
    assert_eq!((&lending.must[..], &lending.may[..]), (&ages[..], &ages[..]));
    assert_eq!(lending.classes, [2, 2, 1, 1, 1, 2, 2, 1]);
    assert_eq!(
        hits(&records, 1, 1),
        [false, false, true, true, true, false, false, true]
    );
}

#[test]
fn the_first_touch_may_make_the_second_one_sure() {
    // unknown, one way: block 1 may be there on arrival, but not after a touch of block 0 of its set
    assert_eq!(classes(&[four(0x0E)], 0, 1, UNKNOWN), [5, 2]);
    assert_eq!(classes(&[four(0x0E)], 1, 1, UNKNOWN), [5, 5]);
}

#[test]
fn a_reference_goes_into_the_next_block_from_its_lines_last_bytes_on() {
    for line in 2..=8 {
        let size = 1 << line;
        for (code, bytes) in [(0, 1), (1, 2), (2, 4)] {
            for first in size - 4..size {
                let mut chart = Chart::of(vec![Record::write(size + first).sized(code)]);
                chart.header.line = line;
                let blocks = chart::Chart::read(&chart.bytes())
                    .expect("the chart is accepted")
                    .blocks;
                let both = first + bytes > size;
                assert_eq!(blocks, [1, 2][..1 + usize::from(both)], "{bytes} bytes from {first} on");
            }
        }
    }
}

#[test]
fn a_reference_within_a_line_makes_no_second_touch_and_a_step_none() {
    let records = [four(0x0C), Record::read(0x0E).sized(1), Record::step(), four(0x0D)];
    assert_eq!(classes(&records, 0, 2, EMPTY), [2, 4, 1, 4, 4, 4, 1, 2]);
}

#[test]
fn an_unreached_node_has_no_class_whatever_it_touches() {
    let mut lending = Lending::of(2, 2, 9);
    lending.analyse(&Chart::of(vec![Record::step(), four(0x0E)]).bytes(), PASSES);
    assert_eq!(lending.classes, [4, 4, 0, 0]);
}

#[test]
fn the_checker_goes_touch_by_touch() {
    let chart = Chart::of(vec![four(0x0E), Record::step()]).in_a_row().bytes();
    let mut table = Lending::of(2, 2, 0);
    table.analyse(&chart, PASSES);
    assert_eq!(
        (&table.must[..], &table.may[..]),
        (&[2, 2, 1, 0][..], &[2, 2, 1, 0][..])
    );
    let mut passes = |lower, upper| {
        table.must[2..].copy_from_slice(&[lower, upper]);
        table.may[2..].copy_from_slice(&[lower, upper]);
        table.check(&chart)
    };
    // the upper block touched first, only one of them touched, and both as they are
    assert_eq!(passes(0, 1), Ok(false));
    assert_eq!(passes(0, 2), Ok(false));
    assert_eq!(passes(2, 0), Ok(false));
    assert_eq!(passes(1, 0), Ok(true));
}

/// The chart charts/straddle: five reads in a row, two sets of one way, empty.
fn five() -> Vec<u8> {
    let records = vec![
        four(0x0E),
        Record::read(0x00),
        Record::read(0x10),
        four(0x1E),
        Record::read(0x00),
    ];
    Chart::of(records).in_a_row().shaped(1, 1, EMPTY).bytes()
}

#[test]
fn each_touch_is_paid() {
    let bytes = five();
    let chart = chart::Chart::read(&bytes).expect("the chart is accepted");
    let costs = Costs { hit: 1, miss: 10 };
    let paid = |nodes: &[usize]| cost(&chart, Cache::empty(chart.header.geometry), costs, nodes);
    // miss miss, hit, hit, hit miss, miss
    assert_eq!(paid(&[0]), Some(20));
    assert_eq!(paid(&[0, 1, 2, 3]), Some(20 + 1 + 1 + 11));
    assert_eq!(paid(&[0, 1, 2, 3, 4]), Some(43));
    let mut table = Lending::largest();
    table.analyse(&bytes, PASSES);
    assert_eq!(table.classes[..10], [2, 2, 1, 4, 1, 4, 1, 2, 2, 4]);
    let totals = |floors: [u16; 5], ceilings: [u16; 5]| {
        let bounds = Bounds {
            floors: &floors,
            ceilings: &ceilings,
        };
        table.totals(&bytes, costs, bounds).expect("nothing is refused")
    };
    assert_eq!(totals([1; 5], [1; 5]), Totals { low: 43, high: 43 });
    let other = totals([0, 0, 0, 2, 0], [3, 0, 0, 5, 0]);
    assert_eq!(other, Totals { low: 22, high: 60 + 55 });
}

#[test]
fn a_kept_touch_beside_a_sure_one_is_paid_by_its_own_class() {
    let bytes = Chart::of(vec![four(0x0E)]).shaped(0, 1, UNKNOWN).bytes();
    let mut table = Lending::largest();
    table.analyse(&bytes, PASSES);
    let bounds = Bounds {
        floors: &[3],
        ceilings: &[5],
    };
    let totals = table.totals(&bytes, Costs { hit: 1, miss: 10 }, bounds);
    // at least a hit and a miss three times, at most a miss five times beside one miss and four hits
    assert_eq!(totals, Ok(Totals { low: 33, high: 64 }));
}
