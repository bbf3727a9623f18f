//! Cases of veilbuzz_read.

use crate::answers::{told, Answer};
use crate::buffer::Buffer;
use crate::case::{Case, Function};
use crate::inputs;
use charts::random::Random;
use second::chart::Chart;

/// How many numbers a header has.
const NUMBERS: usize = 6;

pub fn case(random: &mut Random) -> Case {
    let bytes = inputs::bytes(random, 2);
    // number, place and blocks
    let (answer, header): (Answer<3>, _) = match Chart::read(&bytes) {
        Ok(chart) => (
            Answer([0, 0, chart.blocks.len() as u64]),
            Some(chart.header.fields().numbers()),
        ),
        Err(refusal) => (Answer::refused(refusal), None),
    };
    let header = told(random, header.as_ref().map(|numbers| &numbers[..]), NUMBERS);
    Case {
        function: Function::Read,
        numbers: vec![],
        returned: answer.number(),
        buffers: vec![Buffer::whole(&bytes), header, answer.told(random)],
    }
}
