//! Cases of veilbuzz_analyse.

use crate::answers::Answer;
use crate::buffer::Buffer;
use crate::case::{Case, Function};
use crate::element::filled;
use crate::inputs;
use crate::lengths::around;
use charts::random::Random;
use second::analysis::Analysed;
use second::chart::Chart;
use second::lending::Lending;
use second::limits::{PASSES, TOUCHES};

pub fn case(random: &mut Random) -> Case {
    let bytes = inputs::bytes(random, 4);
    let (nodes, blocks) = sizes(random, &bytes);
    let fills: [u8; 5] = std::array::from_fn(|_| random.below(256) as u8);
    let mut lending = Lending {
        blocks: filled(around(random, blocks), fills[0]),
        must: filled(around(random, nodes * blocks), fills[1]),
        may: filled(around(random, nodes * blocks), fills[2]),
        marks: filled(around(random, nodes), fills[3]),
        classes: filled(around(random, TOUCHES * nodes), fills[4]),
    };
    let allowance = allowance(random, &bytes);
    let analysed = lending.analyse(&bytes, allowance);
    let answer = answer(analysed);
    let wrote = !matches!(analysed, Analysed::Refused(_));
    let used = |needed| if wrote { needed } else { 0 };
    let (ages, classes) = (nodes * blocks, TOUCHES * nodes);
    Case {
        function: Function::Analyse,
        numbers: vec![allowance as u64],
        returned: answer.number(),
        buffers: vec![
            Buffer::whole(&bytes),
            Buffer::written(&lending.blocks, blocks, used(blocks), fills[0]),
            Buffer::written(&lending.must, ages, used(ages), fills[1]),
            Buffer::written(&lending.may, ages, used(ages), fills[2]),
            Buffer::written(&lending.marks, nodes, used(nodes), fills[3]),
            Buffer::written(&lending.classes, classes, used(classes), fills[4]),
            answer.told(random),
        ],
    }
}

/// The nodes and blocks of a chart, or any where it is refused and none are needed.
fn sizes(random: &mut Random, bytes: &[u8]) -> (usize, usize) {
    match Chart::read(bytes) {
        Ok(chart) => (chart.nodes.len(), chart.blocks.len()),
        Err(_) => (random.within(1, 4) as usize, random.below(5) as usize),
    }
}

/// The passes allowed: as many as are made, one less, one more, none, one, enough for all charts, the most that there are.
fn allowance(random: &mut Random, bytes: &[u8]) -> usize {
    let made = match Lending::largest().analyse(bytes, PASSES) {
        Analysed::Settled { passes, .. } => passes,
        _ => 1,
    };
    match random.below(10) {
        0 => 0,
        1 => 1,
        2 => made - 1,
        3 => made + 1,
        4 => usize::MAX,
        5 => random.below(made as u64 + 2) as usize,
        6 | 7 => made,
        _ => PASSES,
    }
}

/// Number, place, passes and blocks.
fn answer(analysed: Analysed) -> Answer<4> {
    match analysed {
        Analysed::Refused(refusal) => Answer::refused(refusal),
        Analysed::Settled { passes, blocks } => Answer([0, 0, passes as u64, blocks as u64]),
        Analysed::Unsettled { allowance, blocks } => Answer([12, 0, allowance as u64, blocks as u64]),
    }
}
