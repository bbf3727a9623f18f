//! What a bound goes by beside facts and a certificate: refusals 1 to 11, 13 and 15.

use crate::cache::Costs;
use crate::chart::Chart;
use crate::checker::check;
use crate::class::Class;
use crate::kept::Kept;
use crate::lent::Lent;
use crate::refusal::Refusal;

/// A chart, a table that passes, and costs, as far as they matter.
#[derive(Clone, Debug)]
pub struct Grounds {
    pub entry: usize,
    pub nodes: Vec<Ground>,
    /// How many blocks there are.
    pub blocks: usize,
    /// What a miss costs more than a hit.
    pub difference: u64,
}

/// One node of them.
#[derive(Clone, Debug)]
pub struct Ground {
    pub marked: bool,
    /// What one visit counts, by rule 10.3 and by rule 10.2.
    pub least: u32,
    pub most: u32,
    /// The blocks of which it makes a touch that is called kept.
    pub kept: Vec<usize>,
    pub targets: Vec<usize>,
}

impl Grounds {
    pub fn of(bytes: &[u8], lent: Lent, costs: Costs) -> Result<Grounds, Refusal> {
        let chart = Chart::read(bytes)?;
        if !check(bytes, lent)? {
            return Err(Refusal::of(13));
        }
        if costs.miss < costs.hit {
            return Err(Refusal::of(15));
        }
        let kept = Kept::of(&chart);
        let ground = |node| Ground::of(&chart, lent, costs, &kept, node);
        Ok(Grounds {
            entry: chart.header.entry,
            nodes: (0..chart.nodes.len()).map(ground).collect(),
            blocks: chart.blocks.len(),
            difference: (costs.miss - costs.hit).into(),
        })
    }
}

impl Ground {
    fn of(chart: &Chart, lent: Lent, costs: Costs, kept: &Kept, number: usize) -> Ground {
        let node = &chart.nodes[number];
        let mut ground = Ground {
            marked: lent.marked(number),
            least: 0,
            most: 0,
            kept: Vec::new(),
            targets: node.arrows.targets().to_vec(),
        };
        for (m, class) in node.touched().zip(Class::of(chart, lent, kept, number)) {
            let (least, most) = class.costs(costs);
            ground.least += u32::from(least);
            ground.most += u32::from(most);
            if class == Class::Kept {
                ground.kept.push(m);
            }
        }
        ground
    }
}
