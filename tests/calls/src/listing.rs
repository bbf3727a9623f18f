//! Cases of veilbuzz_blocks.

use crate::answers::Answer;
use crate::buffer::Buffer;
use crate::case::{Case, Function};
use crate::element::filled;
use crate::inputs;
use crate::lengths::around;
use charts::random::Random;
use second::blocks::blocks;
use second::chart::Chart;

pub fn case(random: &mut Random) -> Case {
    let bytes = inputs::bytes(random, 4);
    let needed = match Chart::read(&bytes) {
        Ok(chart) => chart.blocks.len(),
        Err(_) => random.below(5) as usize,
    };
    let fill = random.below(256) as u8;
    let mut list = filled(around(random, needed), fill);
    // number, place and blocks
    let (answer, used): (Answer<3>, _) = match blocks(&bytes, &mut list) {
        Ok(count) => (Answer([0, 0, count as u64]), count),
        Err(refusal) => (Answer::refused(refusal), 0),
    };
    Case {
        function: Function::Blocks,
        numbers: vec![],
        returned: answer.number(),
        buffers: vec![
            Buffer::whole(&bytes),
            Buffer::written(&list, needed, used, fill),
            answer.told(random),
        ],
    }
}
