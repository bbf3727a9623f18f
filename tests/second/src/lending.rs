use crate::analysis::{analyse, Analysed, Buffers};
use crate::cache::Costs;
use crate::chart::Chart;
use crate::checker::check;
use crate::clock::ClockSheet;
use crate::deadline::{deadline, Deadline, Judged};
use crate::grounds::Grounds;
use crate::lent::Lent;
use crate::limits::{BLOCKS, NODES, PASSES, TOUCHES};
use crate::refusal::Refusal;
use crate::totals::{totals, Bounds, Totals};

/// Buffers of one's own, to lend to an analysis, to the checker, to the totals, to the deadline or for a bound.
#[derive(Clone, Debug, PartialEq, Eq)]
pub struct Lending {
    pub blocks: Vec<u32>,
    pub must: Vec<u8>,
    pub may: Vec<u8>,
    pub marks: Vec<u8>,
    pub classes: Vec<u8>,
}

impl Lending {
    /// Room for so many blocks and nodes, all of one byte, so that what is not written can be seen.
    pub fn of(blocks: usize, nodes: usize, byte: u8) -> Lending {
        Lending {
            blocks: vec![u32::from(byte); blocks],
            must: vec![byte; nodes * blocks],
            may: vec![byte; nodes * blocks],
            marks: vec![byte; nodes],
            classes: vec![byte; TOUCHES * nodes],
        }
    }

    /// Zeros, with room for the largest chart.
    pub fn largest() -> Lending {
        Lending::of(BLOCKS, NODES, 0)
    }

    /// What the analysis leaves of a chart with these bytes, in buffers just as long as used.
    pub fn analysed(bytes: &[u8], chart: &Chart) -> Lending {
        let mut lending = Lending::of(chart.blocks.len(), chart.nodes.len(), 0);
        lending.analyse(bytes, PASSES);
        lending
    }

    pub fn analyse(&mut self, chart: &[u8], allowance: usize) -> Analysed {
        let buffers = Buffers {
            blocks: &mut self.blocks,
            must: &mut self.must,
            may: &mut self.may,
            marks: &mut self.marks,
            classes: &mut self.classes,
        };
        analyse(chart, allowance, buffers)
    }

    /// The table to be read.
    pub fn lent(&self) -> Lent<'_> {
        Lent {
            must: &self.must,
            may: &self.may,
            marks: &self.marks,
        }
    }

    pub fn check(&self, chart: &[u8]) -> Result<bool, Refusal> {
        check(chart, self.lent())
    }

    pub fn totals(&self, chart: &[u8], costs: Costs, bounds: Bounds) -> Result<Totals, Refusal> {
        totals(chart, self.lent(), costs, bounds)
    }

    pub fn deadline(
        &self,
        chart: &[u8],
        costs: Costs,
        bounds: Bounds,
        sheet: ClockSheet,
        asked: Option<Deadline>,
    ) -> Result<Judged, Refusal> {
        deadline(chart, self.lent(), costs, bounds, sheet, asked)
    }

    /// What a bound goes by beside facts and a certificate.
    pub fn grounds(&self, chart: &[u8], costs: Costs) -> Result<Grounds, Refusal> {
        Grounds::of(chart, self.lent(), costs)
    }
}
