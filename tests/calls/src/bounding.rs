//! Cases of veilbuzz_bound.

use crate::answers::Answer;
use crate::basis::Basis;
use crate::case::{Case, Function};
use crate::claims::{claim, lists};
use charts::random::Random;
use charts::Claim;
use second::grounds::Grounds;

pub fn case(random: &mut Random) -> Case {
    let basis = Basis::of(random);
    let grounds = Grounds::of(&basis.bytes, basis.table.lent(), basis.costs);
    let claim = claim(random, grounds.as_ref().ok(), basis.nodes());
    let lists = lists(random, &claim);
    let [coefficients, limits, multipliers, potentials] = lists.each_ref().map(|list| list.elements::<i64>());
    let lent = Claim {
        coefficients,
        limits,
        multipliers,
        potentials,
        ..claim
    };
    // number, place and the bound
    let answer: Answer<3> = match grounds.and_then(|grounds| lent.bound(&grounds)) {
        Ok(bound) => Answer([0, 0, bound]),
        Err(refusal) => Answer::refused(refusal),
    };
    let mut numbers = basis.numbers().to_vec();
    numbers.extend([lent.side, lent.denominator]);
    let mut buffers = basis.buffers();
    buffers.extend(lists);
    buffers.push(answer.told(random));
    Case {
        function: Function::Bound,
        numbers,
        returned: answer.number(),
        buffers,
    }
}
