//! Parts of a picture that no arrow joins to the rest. Graphviz puts them all into one row, however long that gets; here they are put under
//! each other, in a few columns.

use crate::plan::Arrow;

/// How many times as wide as high a node is, about.
const WIDER: usize = 4;

/// Which item is to be below which, without an arrow that is seen.
pub fn below(items: usize, arrows: &[Arrow]) -> Vec<[usize; 2]> {
    let heads = heads(items, arrows);
    let apart = heads.get(1..).unwrap_or(&[]);
    let columns = (apart.len() / WIDER).isqrt().max(1);
    apart
        .iter()
        .zip(apart.iter().skip(columns))
        .map(|(above, below)| [*above, *below])
        .collect()
}

/// Of all items that arrows join, the first.
fn heads(items: usize, arrows: &[Arrow]) -> Vec<usize> {
    let mut first: Vec<usize> = (0..items).collect();
    let head = |first: &[usize], mut item: usize| {
        while first[item] != item {
            item = first[item];
        }
        item
    };
    for arrow in arrows {
        let [one, other] = [arrow.from, arrow.to].map(|item| head(&first, item));
        first[one.max(other)] = one.min(other);
    }
    (0..items).filter(|item| first[*item] == *item).collect()
}
