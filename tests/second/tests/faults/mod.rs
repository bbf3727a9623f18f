//! Faults of a question, in the order in which they are refused.

use second::refusal::Refusal;
use std::fmt::Debug;

/// A refusal, and a change of the question that brings it about.
pub type Fault<Q> = (Refusal, fn(&mut Q));

/// Holds the answer to the first fault, for each choice of some of these faults of an accepted question.
pub fn first_of_any_is_told<Q, A: Debug + PartialEq>(
    faults: &[Fault<Q>],
    accepted: fn() -> Q,
    answer: fn(&Q) -> Result<A, Refusal>,
) {
    for chosen in 1..1 << faults.len() {
        let mut question = accepted();
        let among = |fault: &usize| chosen >> fault & 1 == 1;
        for fault in (0..faults.len()).filter(among) {
            faults[fault].1(&mut question);
        }
        let first = (0..faults.len()).find(among).expect("there is one");
        assert_eq!(answer(&question), Err(faults[first].0), "faults {chosen:b}");
    }
}
