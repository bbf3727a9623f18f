//! Analyses measured on the same charts.

use crate::kinds::Kind;
use crate::runs::{Analysis, Run, OURS, SECOND, UNCHANGED};
use crate::timing::{best, middle, turns};
use second::analysis::Analysed;
use second::lending::Lending;
use second::limits::{BLOCKS, NODES, PASSES};
use second::refusal::Refusal;
use std::time::Duration;

/// The nodes of the smallest charts, which have no more blocks.
pub const FEWEST: usize = 16;

#[derive(Clone, Copy)]
pub struct Case {
    pub kind: Kind,
    pub nodes: usize,
    pub blocks: usize,
    /// Whether the caller clears the buffers before each analysis.
    pub cleared: bool,
}

/// What some analyses took that were measured together.
pub struct Measure<const OF: usize> {
    pub passes: usize,
    readings: Vec<[Duration; OF]>,
}

impl<const OF: usize> Measure<OF> {
    /// The best time of each, in microseconds.
    pub fn best(&self) -> [f64; OF] {
        best(&self.readings)
    }

    /// How many times another's time the first takes: the middle ratio of a turn.
    pub fn middle(&self, other: usize) -> f64 {
        middle(&self.readings, other)
    }
}

impl Case {
    /// Nodes and blocks, the most of both first.
    const SIZES: [(usize, usize); 6] = [
        (NODES, BLOCKS),
        (NODES, 8),
        (256, BLOCKS),
        (256, 8),
        (FEWEST, FEWEST),
        (FEWEST, 8),
    ];

    /// The table of the proved analysis and what it is measured against.
    pub fn all() -> impl Iterator<Item = Case> {
        Case::of(&Kind::IN_TURN).flat_map(|case| [false, true].map(|cleared| Case { cleared, ..case }))
    }

    /// The same of nodes that touch two blocks each, which have no bar in the picture.
    pub fn straddling() -> impl Iterator<Item = Case> {
        Case::of(&[Kind::Straddling])
    }

    /// The table of the proved analysis before a change and after it.
    pub fn changed() -> impl Iterator<Item = Case> {
        Case::of(&Kind::IN_TURN).chain(Case::of(&[Kind::Mixed]))
    }

    fn of(kinds: &'static [Kind]) -> impl Iterator<Item = Case> {
        Case::SIZES.into_iter().flat_map(move |(nodes, blocks)| {
            kinds.iter().map(move |&kind| Case {
                kind,
                nodes,
                blocks,
                cleared: false,
            })
        })
    }

    /// Whether an analysis takes charts of so many nodes: one from before a change may refuse them.
    pub fn taken_by(self, analysis: Analysis) -> bool {
        let mut lent = Lending::of(self.blocks, self.nodes, 0);
        let charts = self.kind.charts(self.nodes, self.blocks);
        charts.iter().all(|chart| {
            !matches!(
                analysis(&mut lent, chart, 0),
                Analysed::Refused(Refusal { number: 5, .. })
            )
        })
    }

    /// The proved analysis and what it is measured against.
    pub fn measure(self) -> Measure<3> {
        self.compare([OURS, SECOND, UNCHANGED], PASSES, |ours, other| ours == other)
    }

    /// Times analyses with so many passes allowed, once they give the same answer and the buffers that they leave agree with the first one's.
    pub fn compare<const OF: usize>(
        self,
        analyses: [Analysis; OF],
        allowance: usize,
        agree: fn(&Lending, &Lending) -> bool,
    ) -> Measure<OF> {
        let charts = self.kind.charts(self.nodes, self.blocks);
        let mut runs = analyses.map(|analysis| Run {
            analysis,
            charts: &charts,
            lent: Lending::of(self.blocks, self.nodes, 0),
            cleared: self.cleared,
        });
        let passes = charts.iter().map(|chart| agreed(&mut runs, chart, agree)).last();
        Measure {
            passes: passes.expect("there are charts"),
            readings: turns(runs.each_mut().map(|run| || run.timed(allowance))),
        }
    }
}

/// How many passes all of them took for a chart.
fn agreed(runs: &mut [Run], chart: &[u8], agree: fn(&Lending, &Lending) -> bool) -> usize {
    let (first, others) = runs.split_first_mut().expect("there are analyses");
    let answer = first.once(chart, PASSES);
    for other in others {
        assert_eq!(answer, other.once(chart, PASSES));
        assert!(agree(&first.lent, &other.lent), "{:?} and {:?}", first.lent, other.lent);
    }
    let Analysed::Settled { passes, .. } = answer else {
        panic!("the chart is not settled: {answer:?}");
    };
    passes
}

/// A ratio with as many places as say something.
pub fn shown(ratio: f64) -> String {
    if ratio < 0.01 {
        format!("{ratio:.4}")
    } else if ratio < 0.1 {
        format!("{ratio:.3}")
    } else {
        format!("{ratio:.2}")
    }
}
