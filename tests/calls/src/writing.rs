//! Cases of veilbuzz_write.

use crate::answers::Answer;
use crate::buffer::Buffer;
use crate::case::{Case, Function};
use crate::element::filled;
use crate::given::given;
use crate::lengths::{around, just};
use charts::random::Random;
use second::header::HeaderFields;
use second::limits::length;
use second::writer::write;

pub fn case(random: &mut Random) -> Case {
    let given = given(random);
    let nodes = given.lists[0].len();
    let lists = given.lists.map(|list| {
        let length = just(random, nodes, 150);
        Buffer::reads(random, &list, nodes, length)
    });
    let elements = [0, 1, 2, 3, 4, 5].map(|list: usize| lists[list].elements::<u64>());
    let (needed, fill) = (length(nodes), random.below(256) as u8);
    let mut chart = filled(around(random, needed), fill);
    let header = HeaderFields::of(given.header);
    // number, place and the bytes written
    let (answer, used): (Answer<3>, _) = match write(header, elements.each_ref().map(Vec::as_slice), &mut chart) {
        Ok(length) => (Answer([0, 0, length as u64]), length),
        Err(refusal) => (Answer::refused(refusal), 0),
    };
    let mut buffers = lists.to_vec();
    buffers.extend([Buffer::written(&chart, needed, used, fill), answer.told(random)]);
    Case {
        function: Function::Write,
        numbers: given.header.to_vec(),
        returned: answer.number(),
        buffers,
    }
}
