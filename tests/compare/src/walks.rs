//! Random walks through the plain cache, held to the archive's classes, ages, totals, deadlines and bounds.

use crate::ask::{self, LentBounds};
use crate::bounds::{costs, Question};
use crate::bounds_asked;
use crate::expected;
use crate::lent::Lent;
use crate::paid::{pay, Paid};
use crate::raw_bound::Basis;
use crate::raw_deadline::Asked;
use crate::same::{holds, Held};
use crate::table::{LentTable, Table};
use crate::tally::Tally;
use crate::walk_bounds;
use crate::walk_times::WalkTimes;
use charts::random::Random;
use second::cache::Cache;
use second::chart::Chart;
use second::header::Start;
use veilbuzz::{Costs, Totals};

/// How walks are counted: by their start, and by whether all their touches are sure.
pub const WALK: &str = "a walk from start";
pub const SURE: &str = "a walk without an unsure or a kept touch";

/// A cache as a walk may find it: empty, or with any blocks, also some that the chart does not have.
fn found(random: &mut Random, chart: &Chart) -> Cache {
    let mut cache = Cache::empty(chart.header.geometry);
    if chart.header.start == Start::Unknown {
        for _ in 0..random.below(40) {
            let block = match chart.blocks.len() {
                0 => random.below(1 << 24) as u32,
                _ if random.once_in(3) => random.below(1 << 24) as u32,
                blocks => chart.blocks[random.below(blocks as u64) as usize],
            };
            cache.touch(block);
        }
    }
    cache
}

/// A random walk.
fn walk(random: &mut Random, chart: &Chart) -> Vec<usize> {
    let most = if random.once_in(20) { 400 } else { 30 };
    let mut nodes = vec![chart.header.entry];
    while nodes.len() < most {
        let targets = chart.nodes[nodes[nodes.len() - 1]].arrows.targets();
        if targets.is_empty() {
            break;
        }
        nodes.push(targets[random.below(targets.len() as u64) as usize]);
    }
    nodes
}

/// Floors and ceilings that a walk keeps: its own visits, or around them.
fn around(random: &mut Random, visits: &[u16]) -> LentBounds {
    let mut question = Question {
        costs: Costs { hit: 0, miss: 0 },
        floors: visits.to_vec(),
        ceilings: visits.to_vec(),
    };
    for (floor, ceiling) in question.floors.iter_mut().zip(&mut question.ceilings) {
        if random.once_in(2) {
            *floor = random.within(0, (*floor).into()) as u16;
        }
        match random.below(6) {
            0 => *ceiling = random.within((*ceiling).into(), 65_535) as u16,
            1 | 2 => *ceiling += random.below(4) as u16,
            _ => {}
        }
    }
    question.lent(random)
}

/// The archive's totals under a table and bounds that a walk keeps. What it paid lies between them.
fn between(
    tally: &mut Tally,
    bytes: &[u8],
    table: &LentTable,
    costs: Costs,
    bounds: &LentBounds,
    paid: u64,
) -> Held<Totals> {
    let totals =
        ask::total(tally, bytes, table, costs, bounds)?.map_err(|refusal| format!("a walk's totals: {refusal}"))?;
    holds(totals.low <= paid && paid <= totals.high, || {
        format!(
            "a walk costs {paid}, and has {totals:?} with {costs:?} and {:?}",
            bounds.bounds()
        )
    })?;
    Ok(totals)
}

/// Walks once, and holds the cost to the totals under tables that pass, of which the first is the archive's own.
pub fn hold(
    random: &mut Random,
    tally: &mut Tally,
    bytes: &[u8],
    chart: &Chart,
    ours: &Lent,
    tables: &[Table],
) -> Held {
    let costs = costs(random);
    let walk = walk(random, chart);
    let cache = found(random, chart);
    let Paid { paid, totals, sure } = pay(tally, chart, ours, cache, costs, &walk)?;
    tally.at(WALK, (chart.header.start == Start::Empty).into());
    tally.add_if(sure && paid > 0, SURE);
    let mut visits = vec![0; chart.nodes.len()];
    for &node in &walk {
        visits[node] += 1;
    }
    let own = Question {
        costs,
        floors: visits.clone(),
        ceilings: visits.clone(),
    };
    let mut times = WalkTimes::of(random, paid);
    for (number, table) in tables.iter().enumerate() {
        let table = LentTable::of(random, table);
        for (close, bounds) in [(true, own.lent(random)), (false, around(random, &visits))] {
            let within = between(tally, bytes, &table, costs, &bounds, paid)?;
            let exact = close && number == 0;
            holds(!exact || within == totals, || {
                format!("a walk costs {paid}, and has {within:?} and not {totals:?} with {own:?}")
            })?;
            holds(!exact || !sure || within.low == within.high, || {
                format!("a sure walk costs {paid}, and has {within:?} with {own:?}")
            })?;
            let asked = Asked {
                chart: bytes,
                table: &table,
                costs,
                bounds: &bounds,
                totals: Ok(within),
            };
            times.hold(random, tally, &asked)?;
        }
        if bounds_asked::asked_for(random, chart.nodes.len()) {
            let grounds = expected::grounds(bytes, &table, costs);
            let basis = Basis {
                chart: bytes,
                table: &table,
                costs,
                grounds: &grounds,
            };
            walk_bounds::hold(random, tally, &basis, &visits, paid)?;
        }
    }
    times.end(tally)
}
