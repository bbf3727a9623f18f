//! Veilbuzz for Rust: does a memory reference always hit the cache, always miss, miss once at the most, or can it not be told?
//!
//! This is a thin and safe cover over the C functions of `include/veilbuzz.h`. The source of those is proved: for any bytes and any lengths
//! each gives the answer that the rules (docs/RULES.md) define, writes only what is said here, and ends. The cover itself is ordinary Rust.
//!
//! [`Analysis::of`] is the short way to a chart's classes, [`chart_of`] to a chart and [`fields_of`] back from it, with buffers of their
//! own. [`read`], [`node`], [`blocks`], [`write`], [`analyse`], [`check`], [`total`], [`deadline`] and [`bound`] are the nine functions with
//! buffers that the caller lends. Where there is no answer there is a [`Refusal`], which has words for what was found and what to do.
//! `examples/short.rs`, `examples/loop.rs`, `examples/make.rs`, `examples/deadline.rs` and `examples/bound.rs` are whole programs.
//!
//! The archive that is linked, libboundary.a, is looked for in the folder that VEILBUZZ_ARCHIVE names, or else in target/archive;
//! `tests/archive` makes it and prints its folder.
//!
//! Below, N is the number of a chart's nodes, B the number of its blocks, A the ways of a set. A reference touches the block of its first byte,
//! and then that of its last byte if that is another.

mod analyse;
mod analysis;
mod answer;
mod blocks;
mod bound;
mod check;
mod class;
mod deadline;
mod limits;
mod node;
mod parts;
pub mod raw;
mod read;
mod refusal;
mod total;
mod words;
mod write;

pub use analyse::{analyse, Buffers, Settled, Unsettled};
pub use analysis::Analysis;
pub use blocks::blocks;
pub use bound::{bound, Certificate, Facts, Side};
pub use check::{check, Table};
pub use class::Class;
pub use deadline::{deadline, ClockSheet, Deadline, Judged};
pub use limits::{AGES, BLOCKS, CLASSES, LONGEST, NODES, PASSES, TOUCHES, WAYS};
pub use node::{node, Fields};
pub use parts::{chart_of, fields_of};
pub use read::{read, Header, Start};
pub use refusal::Refusal;
pub use total::{total, Bounds, Costs, Totals};
pub use write::{write, Heading, NodeLists};

/// The version: that of the C header, VEILBUZZ_VERSION, and of the desk too.
pub const VERSION: &str = env!("CARGO_PKG_VERSION");
