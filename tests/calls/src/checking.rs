//! Cases of veilbuzz_check.

use crate::answers::Answer;
use crate::buffer::Buffer;
use crate::case::{Case, Function};
use crate::inputs;
use crate::tables::Table;
use charts::random::Random;

pub fn case(random: &mut Random) -> Case {
    let bytes = inputs::bytes(random, 4);
    let table = Table::of(random, &bytes, 2);
    // number, place, and whether it passes
    let answer: Answer<3> = match second::checker::check(&bytes, table.lent()) {
        Ok(yes) => Answer([0, 0, yes.into()]),
        Err(refusal) => Answer::refused(refusal),
    };
    let mut buffers = vec![Buffer::whole(&bytes)];
    buffers.extend(table.buffers);
    buffers.push(answer.told(random));
    Case {
        function: Function::Check,
        numbers: vec![],
        returned: answer.number(),
        buffers,
    }
}
