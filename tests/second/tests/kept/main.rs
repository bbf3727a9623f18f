//! Blocks that stay: section 16 of the rules, the class kept and what it adds to the totals. All in one program, for what they share.

mod classes;
mod drawn;
mod equations;
mod older;
mod passes;
mod small;
mod tables;
mod totals;
mod walked;
