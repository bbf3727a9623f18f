//! Facts and certificates: section 18 of the rules. All in one program, for what they share.

mod best;
mod branch;
mod enumerated;
#[path = "../faults/mod.rs"]
mod faults;
mod fractions;
mod holding;
mod nested;
mod order;
mod ranges;
mod rounding;
mod ruled_out;
mod small;
mod totals;
mod walks;
