//! Small charts that are not refused, and what a bound goes by there.

use charts::{Chart, Claim, Record};
use second::cache::Costs;
use second::chart;
use second::grounds::Grounds;
use second::lending::Lending;
use second::refusal::Refusal;

pub const HIGH: u64 = 0;
pub const LOW: u64 = 1;

pub const COSTS: Costs = Costs { hit: 1, miss: 10 };

/// The chart as the second program reads it.
pub fn read(chart: &Chart) -> chart::Chart {
    chart::Chart::read(&chart.bytes()).expect("the chart is accepted")
}

/// What the analysis leaves of a chart, in buffers just as long as used.
pub fn analysed(chart: &Chart) -> Lending {
    Lending::analysed(&chart.bytes(), &read(chart))
}

/// What a bound goes by under the analysis's own table.
pub fn grounds(chart: &Chart, costs: Costs) -> Grounds {
    analysed(chart)
        .grounds(&chart.bytes(), costs)
        .expect("nothing is refused")
}

/// The node of these that a fact speaks of, and no other.
pub fn alone(nodes: usize, node: usize, coefficient: i64) -> Vec<i64> {
    let mut own = vec![0; nodes];
    own[node] = coefficient;
    own
}

/// A read in a loop on itself, a step that ends, and a read that no walk reaches: nodes 0, 1 and 2.
pub fn turning() -> Chart {
    Chart::of(vec![
        Record::read(0).to(0).to(1),
        Record::step(),
        Record::read(0x10).to(0),
    ])
}

/// Ten turns of that at the most: one fact, and a certificate that holds on the high side with bound 10 and the first load.
pub fn ten_turns() -> Claim {
    Claim::of(HIGH, 3, 0, 1).with(&[1, 0, 0], 10, 1)
}

/// What becomes of the ten turns after a change.
pub fn after(change: impl FnOnce(&mut Claim)) -> Result<u64, Refusal> {
    let mut claim = ten_turns();
    change(&mut claim);
    claim.bound(&grounds(&turning(), COSTS))
}
