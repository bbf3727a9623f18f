//! How often something is met among many calls.

use std::collections::BTreeMap;
use std::fmt::Debug;

/// Holds each of these to so many times at least.
pub fn each<K: Ord + Debug>(least: usize, expected: impl IntoIterator<Item = K>, keys: impl Iterator<Item = K>) {
    let mut times = BTreeMap::new();
    for key in keys {
        *times.entry(key).or_insert(0) += 1;
    }
    for key in expected {
        let met = times.get(&key).copied().unwrap_or(0);
        assert!(met >= least, "{key:?} is met only {met} times");
    }
}
