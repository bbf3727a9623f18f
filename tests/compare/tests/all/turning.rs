//! A small chart to ask for bounds of, and a claim that holds there, to be changed.

use charts::random::Random;
use charts::{Chart, Claim, Record};
use compare::expected;
use compare::group::Group;
use compare::raw_bound::Basis;
use compare::same::Held;
use compare::table::{LentTable, Table};
use compare::tally::Tally;
use veilbuzz::{Analysis, Costs};

pub const COSTS: Costs = Costs { hit: 1, miss: 10 };

/// A read that loops on itself, a read of another block, and one that no walk reaches: nodes 0 to 2. In the loop it is kept.
pub fn turning() -> Vec<u8> {
    let records = vec![
        Record::read(0).to(0).to(1),
        Record::read(0x10),
        Record::read(0x20).to(0),
    ];
    Chart::of(records).bytes()
}

/// Ten turns at the most, and the read behind them, which misses.
pub fn ten_turns() -> Claim {
    let claim = Claim::of(0, 3, 0, 1).with(&[1, 0, 0], 10, 1).with(&[0, 1, 0], 1, 10);
    Claim {
        potentials: vec![3, 3, -7],
        ..claim
    }
}

/// The analysis's own table.
pub fn tightest(chart: &[u8]) -> Table {
    Table::copied(Analysis::of(chart).expect("the chart is accepted").table())
}

/// Asks for bounds of a chart under a table, and with such costs.
pub fn on(
    group: &mut Group,
    chart: &[u8],
    table: &Table,
    costs: Costs,
    work: impl FnOnce(&mut Random, &mut Tally, &Basis) -> Held,
) {
    group.hold(chart, |random, tally, chart| {
        let table = LentTable::exactly(random, table);
        let grounds = expected::grounds(chart, &table, costs);
        let basis = Basis {
            chart,
            table: &table,
            costs,
            grounds: &grounds,
        };
        work(random, tally, &basis)
    });
}

/// The same of the ten turns.
pub fn on_turns(group: &mut Group, work: impl FnOnce(&mut Random, &mut Tally, &Basis) -> Held) {
    let chart = turning();
    on(group, &chart, &tightest(&chart), COSTS, work);
}
