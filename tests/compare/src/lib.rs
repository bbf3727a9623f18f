//! The archive of the proved functions and the second program in one process: the same charts, the same buffers, and every answer and
//! every lent byte compared.
//!
//! A difference is told with the seed, the chart's number, its bytes, and the command that has it again.

pub mod apart;
pub mod ask;
pub mod bound_laws;
pub mod bounded;
pub mod bounds;
pub mod bounds_asked;
pub mod claim_damage;
pub mod claims;
pub mod crowds;
pub mod deadlines;
pub mod draw;
pub mod expected;
pub mod features;
pub mod given;
pub mod given_damage;
pub mod given_drawn;
pub mod given_lent;
pub mod given_wide;
pub mod group;
pub mod guarded;
pub mod impossible;
pub mod kept;
pub mod laws;
pub mod lent;
pub mod lent_claim;
pub mod paid;
pub mod raw;
pub mod raw_bound;
pub mod raw_deadline;
pub mod raw_parts;
pub mod roundings;
pub mod run;
pub mod same;
pub mod settings;
pub mod sheet;
pub mod sheets;
pub mod shown;
pub mod sizes;
pub mod straddles;
pub mod table;
pub mod tables;
pub mod tally;
pub mod times;
pub mod trial;
pub mod twins;
pub mod unfit;
pub mod walk_bounds;
pub mod walk_times;
pub mod walks;
pub mod watch;
pub mod writing;
pub mod written;
