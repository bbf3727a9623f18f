//! Cases of veilbuzz_deadline.

use crate::answers::{told, Answer};
use crate::case::{Case, Function};
use crate::question::Question;
use crate::times::Times;
use charts::random::Random;
use second::deadline::judged;
use second::totals::Totals;

pub fn case(random: &mut Random) -> Case {
    let question = Question::of(random);
    let totals = question.totals();
    let times = Times::of(random, totals.unwrap_or(Totals { low: 0, high: 411 }));
    // number, place, and whether it is met
    let (answer, figures): (Answer<3>, _) = match judged(totals, times.sheet(), times.deadline()) {
        Ok(judged) => (
            Answer([0, 0, judged.met.into()]),
            [judged.low.bits(), judged.high.bits()],
        ),
        Err(refusal) => (Answer::refused(refusal), [0; 2]),
    };
    let mut numbers = question.costs().to_vec();
    numbers.extend(times.numbers());
    let mut buffers = question.buffers();
    buffers.extend([told(random, Some(&figures), figures.len()), answer.told(random)]);
    Case {
        function: Function::Deadline,
        numbers,
        returned: answer.number(),
        buffers,
    }
}
