//! The plain cache, and what the plain machine pays along a walk.

use crate::chart::Chart;
use crate::geometry::Geometry;
use crate::limits::TOUCHES;

/// For each set a list of its blocks, youngest first. It begins empty and only touches change it, so that each list has at most as many
/// blocks as there are ways, all different and of its set.
#[derive(Clone, Debug, PartialEq, Eq)]
pub struct Cache {
    geometry: Geometry,
    lists: Vec<Vec<u32>>,
}

impl Cache {
    /// A cache of this shape with all lists empty.
    pub fn empty(geometry: Geometry) -> Cache {
        Cache {
            geometry,
            lists: vec![Vec::new(); 1 << geometry.sets],
        }
    }

    /// The list of a block's set.
    pub fn list(&self, block: u32) -> &[u32] {
        &self.lists[usize::from(self.geometry.set_of(block))]
    }

    /// A block's place in the list of its set; an absent one has the number of ways.
    pub fn age(&self, block: u32) -> u8 {
        let place = self.list(block).iter().position(|&held| held == block);
        place.map_or(self.geometry.ways, |place| place as u8)
    }

    /// A touch of a block. Whether it hits.
    pub fn touch(&mut self, block: u32) -> bool {
        let list = &mut self.lists[usize::from(self.geometry.set_of(block))];
        let place = list.iter().position(|&held| held == block);
        if let Some(place) = place {
            list.remove(place);
        }
        list.insert(0, block);
        list.truncate(usize::from(self.geometry.ways));
        place.is_some()
    }

    /// A visit to a node. Whether each of its touches hits, in turn; nothing for a touch that it does not make.
    pub fn visit(&mut self, chart: &Chart, node: usize) -> [Option<bool>; TOUCHES] {
        let touches = chart.nodes[node].touches;
        touches.map(|column| column.map(|column| self.touch(chart.blocks[column])))
    }
}

/// What a hit and a miss cost.
#[derive(Clone, Copy, Debug, PartialEq, Eq)]
pub struct Costs {
    pub hit: u16,
    pub miss: u16,
}

/// Whether these nodes are a walk (rule 5.1): the first, which there is, is the entry, and an arrow leads from each to the next.
pub fn is_walk(chart: &Chart, nodes: &[usize]) -> bool {
    nodes.first() == Some(&chart.header.entry)
        && nodes
            .windows(2)
            .all(|step| chart.nodes[step[0]].arrows.targets().contains(&step[1]))
}

/// What the plain machine pays along a walk that finds the cache so, or nothing if the nodes are no walk.
pub fn cost(chart: &Chart, mut cache: Cache, costs: Costs, nodes: &[usize]) -> Option<u64> {
    if !is_walk(chart, nodes) {
        return None;
    }
    let touches = nodes.iter().flat_map(|&node| cache.visit(chart, node)).flatten();
    let paid = touches.map(|hits| u64::from(if hits { costs.hit } else { costs.miss }));
    Some(paid.sum())
}
