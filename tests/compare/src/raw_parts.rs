//! The C functions that take a chart apart and put one together, without the wrapper.

use crate::expected;
use crate::given::Given;
use crate::given_lent::LentGiven;
use crate::guarded::Guarded;
use crate::raw::{has_room, list, refused, tells, told};
use crate::same::Held;
use crate::tally::Tally;
use charts::random::Random;
use veilbuzz::raw;
use veilbuzz::Fields;

/// How the lengths of the list of a node's fields are counted.
pub const FIELDS_LIST: &str = "fields list of length";

/// How the room in the two lists of veilbuzz_node is counted: 0 in neither, 1 in the fields' alone, 2 in the answer's alone, 3 in both.
pub const NODE_ROOM: &str = "room in the lists of veilbuzz_node";

/// A node's fields in the order in which they are told.
fn six(fields: Fields) -> [u64; raw::FIELDS_LENGTH] {
    let Fields {
        kind,
        address,
        size,
        outs,
        first,
        second,
    } = fields;
    [kind, address, size, outs, first, second]
}

pub fn node(random: &mut Random, tally: &mut Tally, chart: &[u8], number: usize) -> Held {
    let (mut fields, answer) = (list(random, raw::FIELDS_LENGTH), list(random, raw::NODE_LENGTH));
    let room = [
        has_room(&fields, raw::FIELDS_LENGTH),
        has_room(&answer, raw::NODE_LENGTH),
    ];
    let expected = (room == [true, true]).then(|| expected::node(chart, number));
    let left = match expected {
        Some(Ok(Some(node))) => told(&fields, &six(node)),
        _ => fields.clone(),
    };
    let there = |node: Option<Fields>| [0, 0, node.is_some().into()];
    let numbers = expected.map(|expected| expected.map_or_else(refused::<{ raw::NODE_LENGTH }>, there));
    tally.at(FIELDS_LIST, fields.lent().len());
    tally.at(NODE_ROOM, usize::from(room[0]) + 2 * usize::from(room[1]));
    let place = fields.lent_mut();
    tells(tally, "veilbuzz_node", answer, numbers, |answer, length| unsafe {
        raw::veilbuzz_node(
            chart.as_ptr(),
            chart.len(),
            number,
            place.as_mut_ptr(),
            place.len(),
            answer,
            length,
        )
    })?;
    fields.same("the fields", &left)
}

pub fn blocks(random: &mut Random, tally: &mut Tally, chart: &[u8], lent: &Guarded<u32>) -> Held {
    let (mut ours, mut second) = (lent.clone(), lent.clone());
    let answer = list(random, raw::BLOCKS_LENGTH);
    let numbers = has_room(&answer, raw::BLOCKS_LENGTH).then(|| {
        let expected = expected::blocks(chart, second.lent_mut());
        expected.map_or_else(refused::<{ raw::BLOCKS_LENGTH }>, |blocks| [0, 0, blocks as u64])
    });
    let place = ours.lent_mut();
    tells(tally, "veilbuzz_blocks", answer, numbers, |answer, length| unsafe {
        raw::veilbuzz_blocks(
            chart.as_ptr(),
            chart.len(),
            place.as_mut_ptr(),
            place.len(),
            answer,
            length,
        )
    })?;
    ours.same("the list of blocks", &second)
}

pub fn write(random: &mut Random, tally: &mut Tally, given: &Given, lent: &Guarded<u8>) -> Held {
    let lists = LentGiven::of(random, given);
    let (before, mut ours, mut second) = (lists.clone(), lent.clone(), lent.clone());
    let answer = list(random, raw::WRITE_LENGTH);
    let numbers = has_room(&answer, raw::WRITE_LENGTH).then(|| {
        let expected = expected::write(given, second.lent_mut());
        expected.map_or_else(refused::<{ raw::WRITE_LENGTH }>, |bytes| [0, 0, bytes as u64])
    });
    let (heading, nodes, place) = (lists.heading(), lists.node_lists(), ours.lent_mut());
    tells(tally, "veilbuzz_write", answer, numbers, |answer, length| unsafe {
        raw::veilbuzz_write(
            heading.line,
            heading.sets,
            heading.ways,
            heading.start,
            heading.nodes,
            heading.entry,
            nodes.kinds.as_ptr(),
            nodes.kinds.len(),
            nodes.addresses.as_ptr(),
            nodes.addresses.len(),
            nodes.sizes.as_ptr(),
            nodes.sizes.len(),
            nodes.outs.as_ptr(),
            nodes.outs.len(),
            nodes.firsts.as_ptr(),
            nodes.firsts.len(),
            nodes.seconds.as_ptr(),
            nodes.seconds.len(),
            place.as_mut_ptr(),
            place.len(),
            answer,
            length,
        )
    })?;
    ours.same("the chart", &second)?;
    lists.same(&before)
}
