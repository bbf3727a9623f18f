//! Running the proved program, and holding each report that it prints to the second program's, byte for byte; and reading the
//! repository's pages, to hold them to what there is.

pub mod each;
pub mod folder;
pub mod hold;
pub mod made_up;
pub mod numbers;
pub mod pages;
pub mod program;
pub mod rules;
pub mod tree;
