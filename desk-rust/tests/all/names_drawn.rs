//! Names, drawn. Words of the grammar are names too, where a name stands.

use charts::random::Random;
use std::collections::BTreeSet;

/// What names begin with.
const STEMS: &str = "a n _ __ Z9 turn x.y main$1 a. step read write size visits cache cost entry at line sets ways \
                     start empty hit écho глубина 深さ ß²";

/// What one name begins with.
pub fn stem(random: &mut Random) -> &'static str {
    let stems: Vec<&str> = STEMS.split(' ').collect();
    stems[random.below(stems.len() as u64) as usize]
}

/// Different names, so many.
pub fn names(random: &mut Random, count: usize) -> Vec<String> {
    let mut names = vec![];
    let mut taken = BTreeSet::new();
    while names.len() < count {
        let mut name = stem(random).to_string();
        if random.once_in(2) || taken.contains(&name) {
            name += &random.below(10_000_000).to_string();
        }
        if taken.insert(name.clone()) {
            names.push(name);
        }
    }
    names
}
