//! Calls of the C functions with what each has to answer and to leave, worked out by the second program. `record` writes them to a file, and
//! calls.c, which knows nothing of charts, makes the calls and compares.

mod analysing;
mod answers;
mod basis;
mod bounding;
mod buffer;
mod case;
mod checking;
mod claims;
mod element;
pub mod given;
mod inputs;
mod judging;
mod lengths;
mod listing;
mod misclaims;
mod one_node;
mod question;
mod reading;
mod tables;
mod times;
mod totalling;
mod writing;
pub mod wrong;

pub use buffer::Buffer;
pub use case::{Case, Function};

use charts::random::Random;

/// The seed that `record` takes unless it is given another.
pub const SEED: u64 = 20_250_701;

/// The case of a number: the functions take turns, the totals, the deadline and the bound two, since they have the most refusals; all else is
/// the seed's.
pub fn case(seed: u64, number: u64) -> Case {
    let mut random = Random::new(seed.wrapping_add(number));
    let roomy = match number % 12 {
        0 => reading::case(&mut random),
        1 => analysing::case(&mut random),
        2 => checking::case(&mut random),
        3 => one_node::case(&mut random),
        4 => listing::case(&mut random),
        5 => writing::case(&mut random),
        6 | 7 => totalling::case(&mut random),
        8 | 9 => judging::case(&mut random),
        _ => bounding::case(&mut random),
    };
    roomy.with_regard_to_room()
}
