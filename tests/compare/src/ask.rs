//! The functions, asked of the archive through the wrapper and of the second program: their answers, and all that was lent.

use crate::expected::{self, Timed};
use crate::given::Given;
use crate::given_lent::LentGiven;
use crate::guarded::Guarded;
use crate::lent::Lent;
use crate::lent_claim::LentClaim;
use crate::raw_bound::Basis;
use crate::raw_deadline::Asked;
use crate::same::{same, Held};
use crate::sheet::Sheet;
use crate::table::LentTable;
use crate::tally::{Tally, ANSWER};
use charts::random::Random;
use charts::Claim;
use second::certificate;
use second::deadline::Deadline as Second;
use veilbuzz::{Bounds, ClockSheet, Costs, Deadline, Fields, Header, Refusal, Settled, Side, Totals, Unsettled};

/// Counts an answer of a function by the number of its refusal, 0 for none.
fn counted<T>(tally: &mut Tally, function: &'static str, answer: &Result<T, Refusal>) {
    tally.add(ANSWER);
    tally.at(function, answer.as_ref().err().map_or(0, |refusal| refusal.number));
}

/// How the answers of each function are counted.
pub const READ: &str = "read, refusal";
pub const NODE: &str = "node, refusal";
pub const BLOCKS: &str = "blocks, refusal";
pub const WRITE: &str = "write, refusal";
pub const ANALYSE: &str = "analyse, refusal";
pub const CHECK: &str = "check, refusal";
pub const TOTAL: &str = "total, refusal";

pub fn read(tally: &mut Tally, chart: &[u8]) -> Held<Result<Header, Refusal>> {
    let answer = veilbuzz::read(chart);
    same("read", &answer, &expected::read(chart))?;
    counted(tally, READ, &answer);
    Ok(answer)
}

pub fn node(tally: &mut Tally, chart: &[u8], number: usize) -> Held<Result<Option<Fields>, Refusal>> {
    let answer = veilbuzz::node(chart, number);
    same(&format!("node {number}"), &answer, &expected::node(chart, number))?;
    counted(tally, NODE, &answer);
    Ok(answer)
}

/// Lists the blocks in copies of what is lent. The answer, and what the archive has left in its copy.
pub fn blocks(tally: &mut Tally, chart: &[u8], lent: &Guarded<u32>) -> Held<(Result<usize, Refusal>, Guarded<u32>)> {
    let (mut ours, mut second) = (lent.clone(), lent.clone());
    let answer = veilbuzz::blocks(chart, ours.lent_mut());
    same("blocks", &answer, &expected::blocks(chart, second.lent_mut()))?;
    ours.same("the list of blocks", &second)?;
    counted(tally, BLOCKS, &answer);
    Ok((answer, ours))
}

/// Writes into copies of what is lent. The answer, and what the archive has left in its copy.
pub fn write(
    random: &mut Random,
    tally: &mut Tally,
    given: &Given,
    lent: &Guarded<u8>,
) -> Held<(Result<usize, Refusal>, Guarded<u8>)> {
    let lists = LentGiven::of(random, given);
    let (before, mut ours, mut second) = (lists.clone(), lent.clone(), lent.clone());
    let answer = veilbuzz::write(lists.heading(), &lists.node_lists(), ours.lent_mut());
    same("write", &answer, &expected::write(given, second.lent_mut()))?;
    ours.same("the chart", &second)?;
    lists.same(&before)?;
    counted(tally, WRITE, &answer);
    Ok((answer, ours))
}

/// Analyses into copies of what is lent. The answer, and what the archive has left in its copy.
pub fn analyse(
    tally: &mut Tally,
    chart: &[u8],
    allowance: usize,
    lent: &Lent,
) -> Held<(Result<Settled, Unsettled>, Lent)> {
    let (mut ours, mut second) = (lent.clone(), lent.clone());
    let answer = veilbuzz::analyse(chart, allowance, ours.to_archive());
    let other = expected::analyse(chart, allowance, &mut second);
    same("analyse", &answer, &other)
        .and_then(|()| ours.same(&second))
        .map_err(|words| format!("{words}, with allowance {allowance}"))?;
    counted(tally, ANALYSE, &answer.map_err(Refusal::from));
    Ok((answer, ours))
}

pub fn check(tally: &mut Tally, chart: &[u8], table: &LentTable) -> Held<Result<bool, Refusal>> {
    let before = table.clone();
    let answer = veilbuzz::check(chart, table.to_archive());
    same("check", &answer, &expected::check(chart, &before))
        .and_then(|()| table.same(&before))
        .map_err(|words| format!("{words}, of {:?}", before.to_archive()))?;
    counted(tally, CHECK, &answer);
    Ok(answer)
}

/// The floors and the ceilings that are lent.
#[derive(Clone)]
pub struct LentBounds {
    pub floors: Guarded<u16>,
    pub ceilings: Guarded<u16>,
}

impl LentBounds {
    pub fn bounds(&self) -> Bounds<'_> {
        Bounds {
            floors: self.floors.lent(),
            ceilings: self.ceilings.lent(),
        }
    }

    /// Holds both to what they were before, guards too.
    pub fn same(&self, before: &LentBounds) -> Held {
        self.floors.same("floors, which are only read,", &before.floors)?;
        self.ceilings.same("ceilings, which are only read,", &before.ceilings)
    }
}

pub fn total(
    tally: &mut Tally,
    chart: &[u8],
    table: &LentTable,
    costs: Costs,
    bounds: &LentBounds,
) -> Held<Result<Totals, Refusal>> {
    let before = (table.clone(), bounds.clone());
    let answer = veilbuzz::total(chart, table.to_archive(), costs, bounds.bounds());
    same("total", &answer, &expected::total(chart, table, costs, bounds.bounds()))
        .and_then(|()| table.same(&before.0))
        .and_then(|()| bounds.same(&before.1))
        .map_err(|words| {
            let (table, bounds) = (before.0.to_archive(), before.1.bounds());
            format!("{words}, of {table:?}, {costs:?}, {bounds:?}")
        })?;
    counted(tally, TOTAL, &answer);
    Ok(answer)
}

/// Of a kind that there is not the wrapper cannot be asked.
pub fn deadline(asked: &Asked, sheet: Sheet, expected: Result<Timed, Refusal>) -> Held {
    let deadline = match sheet.deadline() {
        None => return Ok(()),
        Some(Second::None) => Deadline::None,
        Some(Second::Latest(latest)) => Deadline::Latest(latest),
        Some(Second::Window { earliest, latest }) => Deadline::Window { earliest, latest },
    };
    let clock = ClockSheet {
        period: sheet.period,
        overhead: sheet.overhead,
    };
    let (table, bounds) = (asked.table.to_archive(), asked.bounds.bounds());
    let judged = veilbuzz::deadline(asked.chart, table, asked.costs, bounds, clock, deadline);
    let answer = judged.map(|judged| Timed {
        figures: [judged.low.to_bits(), judged.high.to_bits()],
        met: judged.met,
    });
    same("deadline", &answer, &expected).map_err(|words| format!("{words}, of {:?}, {sheet:?}", asked.totals))
}

/// Of a side that there is not the wrapper cannot be asked.
pub fn bound(
    tally: &mut Tally,
    basis: &Basis,
    claim: &Claim,
    lent: &LentClaim,
    expected: Result<u64, Refusal>,
) -> Held {
    let side = match claim.side() {
        None => return Ok(()),
        Some(certificate::Side::High) => Side::High,
        Some(certificate::Side::Low) => Side::Low,
    };
    let (table, before) = (basis.table.to_archive(), lent.clone());
    let answer = veilbuzz::bound(basis.chart, table, basis.costs, side, lent.facts(), lent.certificate());
    same("bound", &answer, &expected)
        .and_then(|()| lent.same(&before))
        .map_err(|words| format!("{words}, of {:?}, {claim:?}, {table:?}", basis.costs))?;
    tally.add(ANSWER);
    Ok(())
}
