//! Questions to the totals that are not refused, to ask for deadlines with; most of one read, whose totals can be any two numbers.

use charts::random::Random;
use charts::Chart;
use compare::ask::{self, LentBounds};
use compare::bounds::Question;
use compare::group::Group;
use compare::raw_deadline::Asked;
use compare::same::Held;
use compare::table::{LentTable, Table};
use compare::tally::Tally;
use veilbuzz::{Analysis, Costs, Totals};

/// A question to the totals as it is lent, without a fault.
pub struct Lent {
    table: LentTable,
    costs: Costs,
    bounds: LentBounds,
}

impl Lent {
    pub fn of(random: &mut Random, chart: &[u8], costs: Costs, floor: u16, ceiling: u16) -> Lent {
        let analysis = Analysis::of(chart).expect("the chart is accepted");
        let table = Table::copied(analysis.table());
        let nodes = table.marks.len();
        let question = Question {
            costs,
            floors: vec![floor; nodes],
            ceilings: vec![ceiling; nodes],
        };
        Lent {
            table: LentTable::exactly(random, &table),
            costs,
            bounds: question.lent(random),
        }
    }

    /// With the totals that there are.
    pub fn asked<'a>(&'a self, tally: &mut Tally, chart: &'a [u8]) -> Held<Asked<'a>> {
        Ok(Asked {
            chart,
            table: &self.table,
            costs: self.costs,
            bounds: &self.bounds,
            totals: ask::total(tally, chart, &self.table, self.costs, &self.bounds)?,
        })
    }
}

/// One read, at a cost of 1 or another: its totals are any two numbers.
pub fn one_read() -> Vec<u8> {
    Chart::reads(&[0]).bytes()
}

/// Goes through sheets with totals of this low and high number.
pub fn with_totals(group: &mut Group, low: u16, high: u16, work: impl FnOnce(&mut Random, &mut Tally, &Asked) -> Held) {
    group.hold(&one_read(), |random, tally, chart| {
        let lent = Lent::of(random, chart, Costs { hit: 1, miss: 1 }, low, high);
        let asked = lent.asked(tally, chart)?;
        assert_eq!(
            asked.totals,
            Ok(Totals {
                low: low.into(),
                high: high.into()
            })
        );
        work(random, tally, &asked)
    });
}
