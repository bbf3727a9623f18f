//! What a walk finds and pays, touch by touch: what is called a hit hits, what is called a miss misses, and of the touches of one block that are
//! called kept one misses at the most.

use crate::lent::Lent;
use crate::same::{holds, Held};
use crate::tally::Tally;
use second::cache::Cache;
use second::chart::Chart;
use second::limits::TOUCHES;
use veilbuzz::{Costs, Totals};

/// How what walks meet is counted: first and second touches by their class.
pub const MET: [&str; TOUCHES] = [
    "a walk makes a first touch of class",
    "a walk makes a second touch of class",
];

/// How touches that are called kept are counted: those that miss, those that hit behind such a miss, and blocks of which none misses.
pub const KEPT: [&str; 3] = [
    "a kept touch that misses",
    "a kept touch that hits after such a miss of its block",
    "a block whose kept touches on a walk all hit",
];

/// What a walk costs, and what the totals have to be with its own visits as floors and ceilings, under the classes that it was held to.
pub struct Paid {
    pub paid: u64,
    pub totals: Totals,
    /// Whether no touch was unsure or kept.
    pub sure: bool,
}

/// What has become of a block's kept touches on a walk.
#[derive(Clone, Copy, PartialEq)]
enum Stay {
    NoneKept,
    AllHit,
    OneMissed,
}

impl Stay {
    /// One more, which hits or misses. Only one may miss.
    fn then(self, tally: &mut Tally, hit: bool) -> Option<Stay> {
        match (self, hit) {
            (Stay::OneMissed, false) => return None,
            (_, false) => tally.add(KEPT[0]),
            (Stay::OneMissed, true) => tally.add(KEPT[1]),
            (_, true) => return Some(Stay::AllHit),
        }
        Some(Stay::OneMissed)
    }
}

/// Walks on what the archive's analysis has written, touch by touch.
pub fn pay(
    tally: &mut Tally,
    chart: &Chart,
    ours: &Lent,
    mut cache: Cache,
    costs: Costs,
    walk: &[usize],
) -> Held<Paid> {
    let (mut paid, mut sure) = (0, true);
    let mut totals = Totals { low: 0, high: 0 };
    let mut stays = vec![Stay::NoneKept; chart.blocks.len()];
    let (a_hit, a_miss) = (u64::from(costs.hit), u64::from(costs.miss));
    for &node in walk {
        holds(ours.marks.lent()[node] == 1, || {
            format!("a walk comes to {node}, which is not marked")
        })?;
        for (column, &block) in chart.blocks.iter().enumerate() {
            let cell = node * chart.blocks.len() + column;
            let (may, age, must) = (ours.may.lent()[cell], cache.age(block), ours.must.lent()[cell]);
            holds(may <= age && age <= must, || {
                format!("at node {node} block {block} has age {age}, and may {may} and must {must}")
            })?;
        }
        let hits = cache.visit(chart, node);
        for (touch, (hit, block)) in hits.into_iter().zip(chart.nodes[node].touches).enumerate() {
            let class = ours.classes.lent()[TOUCHES * node + touch];
            let words = || format!("at touch {touch} of node {node}, of class {class}, a walk finds {hit:?}");
            tally.at(MET[touch], class.into());
            let (Some(hit), Some(block)) = (hit, block) else {
                holds(class == 4, words)?;
                continue;
            };
            let (least, most) = match class {
                1 if hit => (a_hit, a_hit),
                2 if !hit => (a_miss, a_miss),
                3 => (a_hit, a_miss),
                5 => {
                    let then = stays[block].then(tally, hit);
                    stays[block] = then.ok_or_else(|| format!("{}, and its block is kept and has missed", words()))?;
                    (a_hit, a_hit)
                }
                _ => return Err(words()),
            };
            paid += if hit { a_hit } else { a_miss };
            totals.low += least;
            totals.high += most;
            sure &= ![3, 5].contains(&class);
        }
    }
    for stay in stays.into_iter().filter(|&stay| stay != Stay::NoneKept) {
        tally.add_if(stay == Stay::AllHit, KEPT[2]);
        totals.high += a_miss - a_hit;
    }
    Ok(Paid { paid, totals, sure })
}
