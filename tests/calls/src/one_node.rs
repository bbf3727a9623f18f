//! Cases of veilbuzz_node.

use crate::answers::{told, Answer};
use crate::buffer::Buffer;
use crate::case::{Case, Function};
use crate::inputs;
use charts::random::Random;
use second::node::node;

/// How many fields a node has.
const FIELDS: usize = 6;

pub fn case(random: &mut Random) -> Case {
    let bytes = inputs::bytes(random, 3);
    let number = number(random, bytes.len() / 8);
    // number, place, and whether there is such a node
    let (answer, fields): (Answer<3>, _) = match node(&bytes, number) {
        Ok(fields) => (Answer([0, 0, fields.is_some().into()]), fields),
        Err(refusal) => (Answer::refused(refusal), None),
    };
    let fields = fields.map(|fields| fields.numbers());
    let fields = told(random, fields.as_ref().map(|numbers| &numbers[..]), FIELDS);
    Case {
        function: Function::Node,
        numbers: vec![number as u64],
        returned: answer.number(),
        buffers: vec![Buffer::whole(&bytes), fields, answer.told(random)],
    }
}

/// A number of a node in a chart with so many records and a header: mostly one that there is, the last one and the next after it, past all of
/// them, and some that wrap around to a place that there is where they are taken eight times.
fn number(random: &mut Random, words: usize) -> usize {
    match random.below(10) {
        0 => words.saturating_sub(1),
        1 | 2 => words.saturating_sub(2),
        3 => words + random.below(9) as usize,
        4 => usize::MAX - random.below(2) as usize,
        5 => (1 << 61) + random.below(words as u64 + 1) as usize,
        _ => random.below(words.max(2) as u64 - 1) as usize,
    }
}
