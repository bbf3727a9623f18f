//! All walks of a small chart that keep facts, and what the cheapest and the dearest of them cost.

use second::cache::{Cache, Costs};
use second::chart::Chart;
use second::facts::Facts;
use second::header::Start;

/// What the walks cost that keep the facts.
#[derive(Clone, Copy, Debug, Default, PartialEq, Eq)]
pub struct Costing {
    /// How many there are, each counted once for each cache that it finds.
    pub walks: usize,
    pub best: u64,
    pub worst: u64,
}

/// A walk under way.
struct Under<'a> {
    chart: &'a Chart,
    costs: Costs,
    facts: Facts<'a>,
    ceilings: &'a [u64],
    visits: Vec<u64>,
    costing: Costing,
}

/// Goes every walk that keeps the facts, from each of these caches. No walk that keeps them comes to a node more often than its ceiling says.
pub fn all_walks(chart: &Chart, costs: Costs, facts: Facts, ceilings: &[u64], found: &[Cache]) -> Costing {
    let mut under = Under {
        chart,
        costs,
        facts,
        ceilings,
        visits: vec![0; chart.nodes.len()],
        costing: Costing::default(),
    };
    for cache in found {
        under.go(chart.header.entry, cache.clone(), 0);
    }
    under.costing
}

impl Under<'_> {
    /// Comes to a node with so much paid. The walk may end there, and may go on.
    fn go(&mut self, node: usize, mut cache: Cache, mut paid: u64) {
        if self.visits[node] == self.ceilings[node] {
            return;
        }
        self.visits[node] += 1;
        for hits in cache.visit(self.chart, node).into_iter().flatten() {
            paid += u64::from(if hits { self.costs.hit } else { self.costs.miss });
        }
        if self.facts.are_kept(&self.visits) {
            self.costing.count(paid);
        }
        for &target in self.chart.nodes[node].arrows.targets() {
            self.go(target, cache.clone(), paid);
        }
        self.visits[node] -= 1;
    }
}

impl Costing {
    fn count(&mut self, paid: u64) {
        let first = self.walks == 0;
        self.best = if first { paid } else { self.best.min(paid) };
        self.worst = self.worst.max(paid);
        self.walks += 1;
    }
}

/// A block from which on there are few that a chart touches.
const STRANGE: u32 = 1 << 20;

/// Caches that a chart's walks may find: an empty one, and if anything may be there, also each block in the youngest place of an otherwise
/// strange cache, all of them one after another, both ways round, and none of them.
pub fn found(chart: &Chart) -> Vec<Cache> {
    let empty = Cache::empty(chart.header.geometry);
    if chart.header.start == Start::Empty {
        return vec![empty];
    }
    let holding = |blocks: &mut dyn Iterator<Item = u32>| {
        let mut cache = empty.clone();
        // as many strangers as there are ways, in every set
        let strangers = u32::from(chart.ways()) << chart.header.geometry.sets;
        for stranger in 0..strangers {
            cache.touch(STRANGE + stranger);
        }
        blocks.for_each(|block| _ = cache.touch(block));
        cache
    };
    let blocks = || chart.blocks.iter().copied();
    let mut found = vec![empty.clone(), holding(&mut [].into_iter())];
    found.extend([holding(&mut blocks()), holding(&mut blocks().rev())]);
    found.extend(blocks().map(|block| holding(&mut [block].into_iter())));
    found
}
