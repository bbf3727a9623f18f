//! `analyse`: each buffer gets its own part, each length counts, and so does the allowance.

mod lent;

use charts::{Chart, Record};
use lent::{chart, Lent, AGES, BLOCKS, CLASSES, NODES};
use veilbuzz::{analyse, Analysis, Class, Refusal, Settled, Unsettled, PASSES};

fn refusal(number: usize, place: usize) -> Result<Settled, Unsettled> {
    Err(Unsettled::Refused(Refusal { number, place }))
}

/// Analyses into buffers after a change of these. The answer, and what they hold then.
fn after(change: impl Fn(&mut Lent)) -> (Result<Settled, Unsettled>, Lent) {
    let mut lent = Lent::fresh();
    change(&mut lent);
    (analyse(&chart(), PASSES, lent.buffers()), lent)
}

#[test]
fn each_buffer_gets_its_own_part_and_keeps_its_tail() {
    let (answer, lent) = after(|_| ());
    assert_eq!(answer, Ok(Settled { passes: 2, blocks: 3 }));
    assert_eq!(lent, Lent::settled());
}

#[test]
fn each_buffer_has_its_own_length() {
    let shortened: [fn(&mut Lent); 5] = [
        |lent| lent.blocks.truncate(BLOCKS - 1),
        |lent| lent.must.truncate(AGES - 1),
        |lent| lent.may.truncate(AGES - 1),
        |lent| lent.marks.truncate(NODES - 1),
        |lent| lent.classes.truncate(CLASSES - 1),
    ];
    for shorten in shortened {
        let mut before = Lent::fresh();
        shorten(&mut before);
        assert_eq!(after(shorten), (refusal(11, 0), before));
    }
    let exact = |lent: &mut Lent| {
        lent.blocks.truncate(BLOCKS);
        lent.must.truncate(AGES);
        lent.may.truncate(AGES);
        lent.marks.truncate(NODES);
        lent.classes.truncate(CLASSES);
    };
    let mut settled = Lent::settled();
    exact(&mut settled);
    assert_eq!(after(exact), (Ok(Settled { passes: 2, blocks: 3 }), settled));
}

#[test]
fn the_allowance_counts() {
    let mut lent = Lent::fresh();
    let spent = Unsettled::Spent {
        allowance: 1,
        blocks: 3,
    };
    assert_eq!(analyse(&chart(), 1, lent.buffers()), Err(spent));
    assert_eq!(spent.to_string(), Refusal::SPENT.to_string());
    let mut unsettled = Lent::settled();
    unsettled.must[..AGES].fill(0);
    unsettled.may[..AGES].fill(0);
    unsettled.marks[..NODES].fill(0);
    unsettled.classes[..CLASSES].fill(0);
    assert_eq!(lent, unsettled);
    assert_eq!(
        analyse(&chart(), 2, lent.buffers()),
        Ok(Settled { passes: 2, blocks: 3 })
    );
    assert_eq!(lent, Lent::settled());
}

#[test]
fn a_refused_chart_changes_nothing() {
    let mut bytes = chart();
    // size code 3
    bytes[8 + 8 * 2 + 7] |= 3;
    let mut lent = Lent::fresh();
    assert_eq!(analyse(&bytes, PASSES, lent.buffers()), refusal(9, 2));
    assert_eq!(lent, Lent::fresh());
}

#[test]
fn an_analysis_with_buffers_of_its_own_has_the_same() {
    let analysis = Analysis::of(&chart()).expect("the chart is accepted");
    let Lent { must, may, marks, .. } = Lent::settled();
    let table = analysis.table();
    assert_eq!((analysis.passes, &analysis.blocks[..]), (2, &[0, 1, 2][..]));
    assert_eq!(
        (table.must, table.may, table.marks),
        (&must[..AGES], &may[..AGES], &marks[..NODES])
    );
    assert_eq!(
        (analysis.must(1), analysis.may(1)),
        (Some(&[0, 2, 2][..]), Some(&[0, 1, 1][..]))
    );
    assert_eq!(
        analysis.classes,
        [
            [Class::Kept, Class::None],
            [Class::Kept, Class::None],
            [Class::Hit, Class::None],
            [Class::Unreached, Class::Unreached]
        ]
    );
    assert_eq!((analysis.header.nodes, analysis.header.blocks), (NODES, BLOCKS));
    assert_eq!(Analysis::of(&chart()[..7]).map_err(|refused| refused.number), Err(1));
}

#[test]
fn each_touch_of_a_node_has_a_class() {
    // four bytes over the end of a line, and then a byte on either side of it: two sets of one way, empty
    let records = vec![
        Record::read(0x0E).sized(2),
        Record::read(0x0F),
        Record::read(0x1E).sized(2),
        Record::step(),
    ];
    let chart = Chart::of(records).in_a_row().shaped(1, 1, 1).bytes();
    let analysis = Analysis::of(&chart).expect("the chart is accepted");
    assert_eq!(analysis.blocks, [0, 1, 2]);
    assert_eq!(
        analysis.classes,
        [
            [Class::Miss, Class::Miss],
            [Class::Hit, Class::None],
            [Class::Hit, Class::Miss],
            [Class::None, Class::None]
        ]
    );
}

/// Round a ring of two reads a block stays where a set has room for both, and where it has room for one only if the other read is passed by.
#[test]
fn what_stays_is_kept_and_what_may_be_pushed_out_is_unsure() {
    let records = vec![
        Record::read(0x00).to(1).to(2),
        Record::read(0x10).to(0),
        Record::step().to(0),
    ];
    let classes = |ways| {
        let chart = Chart::of(records.clone()).shaped(0, ways, 1).bytes();
        Analysis::of(&chart).expect("the chart is accepted").classes
    };
    let rest = [Class::None, Class::None];
    assert_eq!(
        classes(2),
        [[Class::Kept, Class::None], [Class::Kept, Class::None], rest]
    );
    assert_eq!(
        classes(1),
        [[Class::Unsure, Class::None], [Class::Miss, Class::None], rest]
    );
}

#[test]
fn only_a_node_that_there_is_has_a_row() {
    let analysis = Analysis::of(&chart()).expect("the chart is accepted");
    let Lent { must, may, .. } = Lent::settled();
    for node in 0..NODES {
        let row = node * BLOCKS..(node + 1) * BLOCKS;
        assert_eq!(analysis.must(node), Some(&must[row.clone()]));
        assert_eq!(analysis.may(node), Some(&may[row]));
    }
    let bare = Analysis::of(&Chart::steps(NODES).bytes()).expect("the chart is accepted");
    let none: &[u8] = &[];
    assert_eq!((bare.must(NODES - 1), bare.may(NODES - 1)), (Some(none), Some(none)));
    let pair = Analysis::of(&Chart::straight(&[0x00, 0x10]).bytes()).expect("the chart is accepted");
    // some of these, times the number of blocks, wrap around to a place that there is
    for node in [NODES, NODES + 1, usize::MAX / BLOCKS + 1, 1 << 62, 1 << 63, usize::MAX] {
        for analysis in [&analysis, &bare, &pair] {
            assert_eq!((analysis.must(node), analysis.may(node)), (None, None), "node {node}");
        }
    }
}

#[test]
fn rows_do_not_depend_on_what_a_caller_makes_of_the_rest() {
    let mut analysis = Analysis::of(&chart()).expect("the chart is accepted");
    analysis.header.nodes = usize::MAX;
    analysis.blocks.clear();
    assert_eq!(analysis.must(1), Some(&[0, 2, 2][..]));
    assert_eq!(analysis.must(NODES), None);
}
