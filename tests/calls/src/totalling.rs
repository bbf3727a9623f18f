//! Cases of veilbuzz_total.

use crate::answers::Answer;
use crate::case::{Case, Function};
use crate::question::Question;
use charts::random::Random;

pub fn case(random: &mut Random) -> Case {
    let question = Question::of(random);
    // number, place, low and high
    let answer: Answer<4> = match question.totals() {
        Ok(totals) => Answer([0, 0, totals.low, totals.high]),
        Err(refusal) => Answer::refused(refusal),
    };
    let numbers = question.costs().to_vec();
    let mut buffers = question.buffers();
    buffers.push(answer.told(random));
    Case {
        function: Function::Total,
        numbers,
        returned: answer.number(),
        buffers,
    }
}
