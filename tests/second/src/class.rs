use crate::cache::Costs;
use crate::chart::Chart;
use crate::kept::Kept;
use crate::lent::Lent;
use crate::limits::TOUCHES;
use crate::state::State;

/// What is known of a touch. The numbers are those of rule 8.1.
#[derive(Clone, Copy, Debug, PartialEq, Eq)]
pub enum Class {
    Unreached = 0,
    Hit = 1,
    Miss = 2,
    Unsure = 3,
    None = 4,
    Kept = 5,
}

impl Class {
    /// The classes of a node under a table, one for each touch that it can make. The second goes by the state after the first (rule 8.2).
    pub fn of(chart: &Chart, lent: Lent, kept: &Kept, node: usize) -> [Class; TOUCHES] {
        if !lent.marked(node) {
            return [Class::Unreached; TOUCHES];
        }
        let (must, may) = lent.rows(chart, node);
        let [first, second] = kept.at(node);
        match chart.nodes[node].touches {
            [None, _] => [Class::None; TOUCHES],
            [Some(m), None] => [Class::known(chart, must[m], may[m], first), Class::None],
            [Some(lower), Some(upper)] => {
                let mut state = State {
                    must: must.to_vec(),
                    may: may.to_vec(),
                };
                state.touch(chart, lower);
                [
                    Class::known(chart, must[lower], may[lower], first),
                    Class::known(chart, state.must[upper], state.may[upper], second),
                ]
            }
        }
    }

    /// The class of a touch by what there is of its block just before it: its ages, and whether it is kept.
    pub fn known(chart: &Chart, must: u8, may: u8, kept: bool) -> Class {
        if must < chart.ways() {
            Class::Hit
        } else if may == chart.ways() {
            Class::Miss
        } else if kept {
            Class::Kept
        } else {
            Class::Unsure
        }
    }

    /// What a touch that is called so counts in the low and in the high total, beside what a block pays once for its kept ones (rules 10.2
    /// and 10.3).
    pub fn costs(self, costs: Costs) -> (u16, u16) {
        match self {
            Class::Unreached | Class::None => (0, 0),
            Class::Hit | Class::Kept => (costs.hit, costs.hit),
            Class::Miss => (costs.miss, costs.miss),
            Class::Unsure => (costs.hit, costs.miss),
        }
    }
}
