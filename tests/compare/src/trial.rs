//! One chart through everything.

use crate::apart::node_and_blocks;
use crate::ask;
use crate::bounds::Question;
use crate::bounds_asked;
use crate::crowds;
use crate::deadlines;
use crate::draw;
use crate::features;
use crate::kept;
use crate::lent::{used, Lent};
use crate::raw;
use crate::raw_deadline::Asked;
use crate::same::{holds, Held};
use crate::sizes;
use crate::straddles;
use crate::table::{LentTable, Table};
use crate::tables::{almost, never, noise, passing, NOISE};
use crate::tally::{Tally, CHART};
use crate::twins;
use crate::walks;
use crate::writing::again;
use charts::random::Random;
use second::chart::Chart;
use veilbuzz::{Header, PASSES, TOUCHES};

/// How many clock sheets and deadlines each question to the totals is asked with too.
const SHEETS: usize = 2;

/// How many claims a share of these questions is asked for bounds with.
const CLAIMS: usize = 4;

/// How many faults the totals were asked with at once.
pub const FAULTS: &str = "faults of a question to the totals";

pub fn trial(random: &mut Random, tally: &mut Tally, chart: &[u8]) -> Held {
    tally.add(CHART);
    if random.once_in(4) {
        raw::read(random, tally, chart)?;
    }
    let answer = ask::read(tally, chart)?;
    node_and_blocks(random, tally, chart, answer)?;
    again(random, tally, chart, answer)?;
    match answer {
        Ok(header) => accepted(random, tally, chart, header),
        Err(refusal) => {
            twins::count(tally, chart, refusal);
            sizes::count(tally, chart, refusal);
            refused(random, tally, chart)
        }
    }
}

/// A chart that is refused is so by each function, whatever else is lent.
fn refused(random: &mut Random, tally: &mut Tally, chart: &[u8]) -> Held {
    let (nodes, blocks) = (random.below(20) as usize, random.below(5) as usize);
    let lent = Lent::of(random, used(nodes, blocks));
    _ = ask::analyse(tally, chart, random.below(3) as usize, &lent)?;
    let table = LentTable::of(random, &Table::uniform(nodes, blocks, 1, 0, 0));
    _ = ask::check(tally, chart, &table)?;
    let question = Question::sound(random, &vec![1; nodes]);
    let bounds = question.lent(random);
    let totals = ask::total(tally, chart, &table, question.costs, &bounds)?;
    let asked = Asked {
        chart,
        table: &table,
        costs: question.costs,
        bounds: &bounds,
        totals,
    };
    deadlines::draw(random, tally, &asked, 1)?;
    if bounds_asked::asked_for(random, nodes) {
        bounds_asked::draw(random, tally, &asked, nodes, 1)?;
    }
    if random.once_in(4) {
        raw::analyse(random, tally, chart, PASSES, &lent)?;
        raw::check(random, tally, chart, &table)?;
        raw::total(random, tally, chart, &table, question.costs, &bounds)?;
    }
    Ok(())
}

fn accepted(random: &mut Random, tally: &mut Tally, bytes: &[u8], header: Header) -> Held {
    let chart = Chart::read(bytes).expect("the archive accepted it, and the second program answers the same");
    let used = used(header.nodes, header.blocks);
    let lengths = used.map(|length| length + random.below(3) as usize);
    let lent = Lent::of(random, lengths);
    let (answer, ours) = ask::analyse(tally, bytes, PASSES, &lent)?;
    let settled = answer.map_err(|refusal| format!("not settled: {refusal}"))?;
    let classes = &ours.classes.lent()[..TOUCHES * header.nodes];
    features::count(tally, bytes, &chart, settled, classes);

    for _ in 0..2 {
        let lengths = if random.once_in(2) {
            draw::lengths(random, tally, used)
        } else {
            used
        };
        let allowance = draw::allowance(random, tally, settled.passes);
        let lent = Lent::of(random, lengths);
        _ = ask::analyse(tally, bytes, allowance, &lent)?;
        if random.once_in(4) {
            raw::analyse(random, tally, bytes, allowance, &lent)?;
        }
    }
    let tightest = Table::written(&ours, header.nodes, header.blocks);
    crowds::count(tally, bytes, &chart, &tightest);
    let held = kept::held(&chart);
    kept::count(tally, &chart, &held, classes);
    straddles::count(tally, bytes, &chart, &tightest, &held, classes);
    let tables = check_tables(random, tally, bytes, &chart, tightest)?;
    for _ in 0..2 {
        question(random, tally, bytes, &chart, &tables)?;
    }
    walks::hold(random, tally, bytes, &chart, &ours, &tables)
}

/// Checks tables that pass, and tables that almost do. The tightest and one other that passes.
fn check_tables(
    random: &mut Random,
    tally: &mut Tally,
    bytes: &[u8],
    chart: &Chart,
    tightest: Table,
) -> Held<Vec<Table>> {
    let (kind, drawn) = passing(random, chart, &tightest);
    let answer = ask::check(tally, bytes, &LentTable::of(random, &drawn))?;
    holds(answer == Ok(true), || format!("{kind} does not pass: {answer:?}"))?;
    tally.at(kind, 1);
    for _ in 0..3 {
        let base = if random.once_in(2) { &tightest } else { &drawn };
        let (kind, table) = match almost(random, chart, base) {
            Some(table) => table,
            None => (NOISE, noise(random, chart)),
        };
        let table = LentTable::of(random, &table);
        let answer = ask::check(tally, bytes, &table)?;
        holds(answer == Ok(false) || !never(kind), || {
            format!("{kind} passes: {answer:?}")
        })?;
        tally.at(kind, (answer == Ok(true)).into());
        if random.once_in(8) {
            raw::check(random, tally, bytes, &table)?;
        }
    }
    let short = shortened(random, &drawn);
    _ = ask::check(tally, bytes, &LentTable::exactly(random, &short))?;
    Ok(vec![tightest, drawn])
}

/// A table with one of its parts cut, if it has anything to cut.
fn shortened(random: &mut Random, table: &Table) -> Table {
    let mut short = table.clone();
    let part = match random.below(3) {
        0 => &mut short.must,
        1 => &mut short.may,
        _ => &mut short.marks,
    };
    let cut = if random.once_in(2) { 1 } else { random.within(1, 9) };
    part.truncate(part.len().saturating_sub(cut as usize));
    short
}

/// Asks for totals, now and then with faults, in the table too, and for the deadline.
fn question(random: &mut Random, tally: &mut Tally, bytes: &[u8], chart: &Chart, tables: &[Table]) -> Held {
    let mut table = tables[random.below(2) as usize].clone();
    let mut question = Question::sound(random, &table.marks);
    let turns = if random.once_in(2) { 3 } else { 12 };
    let mut faults = question.damage(random, &table.marks, turns);
    if random.once_in(turns) {
        let worse = almost(random, chart, &table);
        faults += usize::from(worse.is_some());
        table = worse.map_or(table, |(_, worse)| worse);
    }
    let table = if random.once_in(turns * 2) {
        faults += 1;
        let short = shortened(random, &table);
        LentTable::exactly(random, &short)
    } else {
        LentTable::of(random, &table)
    };
    tally.at(FAULTS, faults);
    let bounds = question.lent(random);
    let totals = ask::total(tally, bytes, &table, question.costs, &bounds)?;
    if totals.is_ok() {
        kept::count_marked(tally, chart, &table, &tables[0].marks, &question.ceilings);
    }
    let asked = Asked {
        chart: bytes,
        table: &table,
        costs: question.costs,
        bounds: &bounds,
        totals,
    };
    deadlines::draw(random, tally, &asked, SHEETS)?;
    if bounds_asked::asked_for(random, chart.nodes.len()) {
        bounds_asked::draw(random, tally, &asked, chart.nodes.len(), CLAIMS)?;
    }
    if random.once_in(4) {
        raw::total(random, tally, bytes, &table, question.costs, &bounds)?;
    }
    Ok(())
}
