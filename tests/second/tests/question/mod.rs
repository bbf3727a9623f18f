//! A question to the totals that is not refused, to be changed until it is.

use charts::{Chart, Record};
use second::analysis::Analysed;
use second::cache::Costs;
use second::lending::Lending;
use second::limits::PASSES;
use second::refusal::Refusal;
use second::totals::{Bounds, Totals};

pub const NODES: usize = 6;
pub const BLOCKS: usize = 2;

/// The sample with three nodes more that no walk reaches: a read, a bare step and a read.
pub fn sample() -> Chart {
    let mut records = Chart::sample().records;
    records.extend([Record::read(0x10).to(0), Record::step(), Record::read(0x10)]);
    Chart::of(records)
}

/// All that the totals are asked with.
#[derive(Clone)]
pub struct Question {
    pub chart: Vec<u8>,
    pub table: Lending,
    pub costs: Costs,
    pub floors: Vec<u16>,
    pub ceilings: Vec<u16>,
}

impl Question {
    /// One that is not refused, with buffers just as long as used.
    pub fn accepted() -> Question {
        let chart = sample().bytes();
        let mut table = Lending::of(BLOCKS, NODES, 77);
        assert!(matches!(table.analyse(&chart, PASSES), Analysed::Settled { .. }));
        Question {
            chart,
            table,
            costs: Costs { hit: 1, miss: 10 },
            floors: vec![1, 1, 1, 0, 0, 0],
            ceilings: vec![1, 10, 1, 5, 5, 5],
        }
    }

    pub fn answer(&self) -> Result<Totals, Refusal> {
        let bounds = Bounds {
            floors: &self.floors,
            ceilings: &self.ceilings,
        };
        self.table.totals(&self.chart, self.costs, bounds)
    }
}

/// The answer after a change.
pub fn after(change: impl Fn(&mut Question)) -> Result<Totals, Refusal> {
    let mut question = Question::accepted();
    change(&mut question);
    question.answer()
}
