//! The order of the refusals of a bound: of several faults at once the first is told.

use crate::faults::{first_of_any_is_told, Fault};
use crate::small::{analysed, ten_turns, turning, COSTS};
use charts::{Chart, Claim};
use second::bound::bound;
use second::cache::Costs;
use second::lending::Lending;
use second::refusal::Refusal;

/// All that a bound is asked with.
#[derive(Clone)]
struct Question {
    chart: Chart,
    table: Lending,
    costs: Costs,
    claim: Claim,
}

impl Question {
    fn accepted() -> Question {
        Question {
            chart: turning(),
            table: analysed(&turning()),
            costs: COSTS,
            claim: ten_turns(),
        }
    }

    fn answer(&self) -> Result<u64, Refusal> {
        let (table, claim) = (self.table.lent(), &self.claim);
        let (facts, certificate) = (claim.facts(), claim.certificate());
        bound(&self.chart.bytes(), table, self.costs, claim.side(), facts, certificate)
    }
}

const FAULTS: [Fault<Question>; 9] = [
    (Refusal { number: 6, place: 0 }, |question| {
        question.chart.header.entry = 3;
    }),
    (Refusal { number: 9, place: 1 }, |question| {
        question.chart.records[1].size = 3;
    }),
    (Refusal { number: 11, place: 0 }, |question| {
        question.table.may.pop();
    }),
    (Refusal { number: 13, place: 0 }, |question| question.table.must[0] = 1),
    (Refusal { number: 15, place: 0 }, |question| question.costs.miss = 0),
    (Refusal { number: 23, place: 0 }, |question| {
        question.claim.multipliers.push(0);
    }),
    (Refusal { number: 24, place: 0 }, |question| {
        question.claim.coefficients[1] = i64::MIN;
    }),
    (Refusal { number: 24, place: 0 }, |question| question.claim.side = 2),
    (Refusal { number: 25, place: 0 }, |question| {
        question.claim.potentials[0] = 5;
    }),
];

#[test]
fn without_a_fault_there_is_a_bound() {
    assert_eq!(Question::accepted().answer(), Ok(19));
}

#[test]
fn the_first_fault_of_any_is_refused() {
    first_of_any_is_told(&FAULTS, Question::accepted, Question::answer);
}

#[test]
fn a_miss_no_dearer_than_a_hit_is_no_fault() {
    let mut question = Question::accepted();
    question.costs = Costs { hit: 1, miss: 1 };
    assert_eq!(question.answer(), Ok(10));
    question.costs = Costs { hit: 0, miss: 0 };
    assert_eq!(question.answer(), Ok(10));
    question.costs = Costs { hit: 1, miss: 0 };
    assert_eq!(question.answer(), Err(Refusal::of(15)));
}

#[test]
fn what_is_longer_than_used_of_a_table_is_not_looked_at() {
    let mut question = Question::accepted();
    question.table.must.push(200);
    question.table.may.push(200);
    question.table.marks.push(200);
    assert_eq!(question.answer(), Ok(19));
}
