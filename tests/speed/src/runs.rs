//! One analysis alone, the proved one or one that it is measured against, with charts and buffers of its own.

use crate::boundary;
use second::analysis::Analysed;
use second::lending::Lending;
use std::hint::black_box;
use std::time::{Duration, Instant};
use unchanged::analysis::analyse_lending;

pub type Analysis = fn(&mut Lending, &[u8], usize) -> Analysed;

pub const OURS: Analysis = boundary::analyse;
pub const SECOND: Analysis = Lending::analyse;
pub const UNCHANGED: Analysis = analyse_lending;

pub struct Run<'a> {
    pub analysis: Analysis,
    pub charts: &'a [Vec<u8>],
    pub lent: Lending,
    /// Whether the caller clears the buffers before each analysis; else they are as the one before left them.
    pub cleared: bool,
}

impl Run<'_> {
    /// The time of one analysis, from one of each chart. What the caller clears is cleared before the clock is read.
    pub fn timed(&mut self, allowance: usize) -> Duration {
        if self.cleared {
            clear(&mut self.lent);
        }
        let start = Instant::now();
        for chart in self.charts {
            self.once(chart, allowance);
        }
        start.elapsed() / self.charts.len() as u32
    }

    /// One analysis that the compiler cannot leave out.
    pub fn once(&mut self, chart: &[u8], allowance: usize) -> Analysed {
        let (lent, chart) = (black_box(&mut self.lent), black_box(chart));
        black_box((self.analysis)(lent, chart, black_box(allowance)))
    }
}

fn clear(lent: &mut Lending) {
    lent.blocks.fill(0);
    for buffer in [&mut lent.must, &mut lent.may, &mut lent.marks, &mut lent.classes] {
        buffer.fill(0);
    }
    black_box(lent);
}
