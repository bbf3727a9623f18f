//! Random charts that the proved reader accepts.

use charts::random::Random;
use charts::random_charts::{of_nodes, whole};
use charts::Chart;
use veilbuzz::read;

/// The next chart of a kind that is accepted: a block too many is all that can be wrong with one.
fn accepted(random: &mut Random, draw: impl Fn(&mut Random) -> Chart) -> Chart {
    loop {
        let chart = draw(random);
        if read(&chart.bytes()).is_ok() {
            return chart;
        }
    }
}

/// One of any size, as other tests draw them.
pub fn of_any_size(random: &mut Random) -> Chart {
    accepted(random, whole)
}

/// One of so many nodes at the most.
pub fn of_at_most(random: &mut Random, nodes: u64) -> Chart {
    accepted(random, |random| {
        let nodes = random.within(1, nodes);
        of_nodes(random, nodes)
    })
}
