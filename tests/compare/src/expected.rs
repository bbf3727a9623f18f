//! The second program's answers in the wrapper's words.

use crate::given::Given;
use crate::lent::Lent;
use crate::sheet::Sheet;
use crate::table::LentTable;
use charts::Claim;
use second::analysis::{self, Analysed};
use second::blocks;
use second::cache;
use second::chart::Chart;
use second::checker;
use second::deadline;
use second::grounds::Grounds;
use second::header;
use second::node;
use second::record::RecordFields;
use second::totals;
use second::writer;
use veilbuzz::{Bounds, Costs, Fields, Header, Refusal, Settled, Start, Totals, Unsettled};

fn refusal(refusal: second::refusal::Refusal) -> Refusal {
    Refusal {
        number: refusal.number,
        place: refusal.place,
    }
}

pub fn read(bytes: &[u8]) -> Result<Header, Refusal> {
    let chart = Chart::read(bytes).map_err(refusal)?;
    Ok(Header {
        line: chart.header.geometry.line as usize,
        sets: chart.header.geometry.sets as usize,
        ways: chart.header.geometry.ways.into(),
        start: match chart.header.start {
            header::Start::Unknown => Start::Unknown,
            header::Start::Empty => Start::Empty,
        },
        nodes: chart.header.nodes,
        entry: chart.header.entry,
        blocks: chart.blocks.len(),
    })
}

/// What a record holds.
pub fn fields(record: RecordFields) -> Fields {
    Fields {
        kind: record.kind,
        address: record.address,
        size: record.size,
        outs: record.outs,
        first: record.first,
        second: record.second,
    }
}

pub fn node(bytes: &[u8], number: usize) -> Result<Option<Fields>, Refusal> {
    let node = node::node(bytes, number).map_err(refusal)?;
    Ok(node.map(fields))
}

pub fn blocks(bytes: &[u8], lent: &mut [u32]) -> Result<usize, Refusal> {
    blocks::blocks(bytes, lent).map_err(refusal)
}

pub fn write(given: &Given, lent: &mut [u8]) -> Result<usize, Refusal> {
    writer::write(given.to_header(), given.to_lists(), lent).map_err(refusal)
}

pub fn analyse(bytes: &[u8], allowance: usize, lent: &mut Lent) -> Result<Settled, Unsettled> {
    match analysis::analyse(bytes, allowance, lent.to_second()) {
        Analysed::Settled { passes, blocks } => Ok(Settled { passes, blocks }),
        Analysed::Unsettled { allowance, blocks } => Err(Unsettled::Spent { allowance, blocks }),
        Analysed::Refused(refused) => Err(Unsettled::Refused(refusal(refused))),
    }
}

pub fn check(bytes: &[u8], table: &LentTable) -> Result<bool, Refusal> {
    checker::check(bytes, table.to_second()).map_err(refusal)
}

fn second_costs(costs: Costs) -> cache::Costs {
    cache::Costs {
        hit: costs.hit,
        miss: costs.miss,
    }
}

pub fn total(bytes: &[u8], table: &LentTable, costs: Costs, bounds: Bounds) -> Result<Totals, Refusal> {
    let costs = second_costs(costs);
    let bounds = totals::Bounds {
        floors: bounds.floors,
        ceilings: bounds.ceilings,
    };
    let totals = totals::totals(bytes, table.to_second(), costs, bounds).map_err(refusal)?;
    Ok(Totals {
        low: totals.low,
        high: totals.high,
    })
}

/// What the deadline tells: the bits of the low and of the high figure, and whether it is met.
#[derive(Clone, Copy, Debug, PartialEq)]
pub struct Timed {
    pub figures: [u64; 2],
    pub met: bool,
}

/// What the deadline tells where the totals have answered so.
pub fn deadline(totals: Result<Totals, Refusal>, sheet: Sheet) -> Result<Timed, Refusal> {
    let totals = match totals {
        Ok(Totals { low, high }) => Ok(totals::Totals { low, high }),
        Err(Refusal { number, place }) => Err(second::refusal::Refusal { number, place }),
    };
    let judged = deadline::judged(totals, sheet.clock(), sheet.deadline()).map_err(refusal)?;
    Ok(Timed {
        figures: [judged.low.bits(), judged.high.bits()],
        met: judged.met,
    })
}

/// What a bound goes by, or what it is refused for, whatever it is asked with.
pub fn grounds(bytes: &[u8], table: &LentTable, costs: Costs) -> Result<Grounds, Refusal> {
    Grounds::of(bytes, table.to_second(), second_costs(costs)).map_err(refusal)
}

/// The bound of a claim there.
pub fn bound(grounds: &Result<Grounds, Refusal>, claim: &Claim) -> Result<u64, Refusal> {
    let grounds = grounds.as_ref().map_err(|&refusal| refusal)?;
    claim.bound(grounds).map_err(refusal)
}
