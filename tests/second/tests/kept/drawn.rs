//! Random charts as the second program reads them.

use charts::random::Random;
use charts::random_charts::of_nodes;
use second::chart::Chart;

/// As many charts, each of a number of nodes up to the most; those with too many blocks are passed over.
pub fn charts(seed: u64, count: usize, most: u64) -> impl Iterator<Item = Chart> {
    let mut random = Random::new(seed);
    let chart = move || {
        let nodes = random.within(1, most);
        Chart::read(&of_nodes(&mut random, nodes).bytes()).ok()
    };
    std::iter::repeat_with(chart).flatten().take(count)
}
