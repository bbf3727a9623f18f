use crate::ages;
use crate::chart::{Chart, Node};
use crate::header::Start;

/// The two rows of ages at one point of a walk.
#[derive(Clone, Debug, PartialEq, Eq)]
pub struct State {
    pub must: Vec<u8>,
    pub may: Vec<u8>,
}

impl State {
    /// What the entry meets before anything is touched.
    pub fn start(chart: &Chart) -> State {
        let youngest = match chart.header.start {
            Start::Unknown => 0,
            Start::Empty => chart.ways(),
        };
        State {
            must: vec![chart.ways(); chart.blocks.len()],
            may: vec![youngest; chart.blocks.len()],
        }
    }

    /// Becomes what a touch of block `m` makes of it.
    pub fn touch(&mut self, chart: &Chart, m: usize) {
        ages::touch_must(&mut self.must, &chart.sets, m);
        ages::touch_may(&mut self.may, &chart.sets, chart.ways(), m);
    }

    /// Becomes what a node's record makes of these rows, which stand on its arrival: one touch after the other.
    pub fn pass_through(&mut self, chart: &Chart, node: &Node, must: &[u8], may: &[u8]) {
        self.must.copy_from_slice(must);
        self.may.copy_from_slice(may);
        for m in node.touched() {
            self.touch(chart, m);
        }
    }
}
