//! Prints the limits, for what is no Rust: nodes, blocks, ways, touches, ages, classes, the longest chart, passes.

use second::limits::{AGES, BLOCKS, CLASSES, LONGEST, NODES, PASSES, TOUCHES, WAYS};

fn main() {
    println!("{NODES} {BLOCKS} {WAYS} {TOUCHES} {AGES} {CLASSES} {LONGEST} {PASSES}");
}
