//! Charts as bytes: the fields of rules 1.2 and 2.1 as plain numbers, allowed or not, and their packing.
//!
//! Nothing here but the random charts, the slowest ones, and `twins` and `sizes`, which ask the second program, knows which values are allowed,
//! so that a test can build any damage it likes. What else is drawn: `random_times` has the floats that a deadline is asked with, `random_facts`
//! and `random_claims` what a bound is asked with, `as_facts` has floors and ceilings for that, and `best` the best certificate for facts, by a
//! linear program.

pub mod as_facts;
pub mod best;
mod chart;
pub mod claim;
pub mod fraction;
mod header;
pub mod longest;
mod pack;
pub mod random;
mod random_arrows;
pub mod random_blocks;
pub mod random_charts;
pub mod random_claims;
mod random_crowds;
mod random_damage;
pub mod random_edges;
pub mod random_facts;
mod random_loose;
mod random_reached;
mod random_reference;
pub mod random_times;
mod record;
pub mod simplex;
pub mod sizes;
pub mod slowest;
pub mod twins;

pub use chart::Chart;
pub use claim::Claim;
pub use header::Header;
pub use record::Record;
