//! What each node adds to the two totals.

use crate::findings::Findings;
use crate::given::Given;
use crate::loads::{difference, kept, Load};
use std::collections::HashMap;
use veilbuzz::{total, Bounds, Refusal, Totals};

/// Of each node in the chart's order: the totals where no walk comes to any other node, less the first loads that are in them, since these are
/// shares of their own. What is left is the same for nodes with the same classes and visits, and is asked for once.
pub fn shares(findings: &Findings, given: &Given) -> Result<Vec<Totals>, Refusal> {
    let Bounds { floors, ceilings } = given.bounds();
    let mut asked = HashMap::new();
    let mut shares = vec![];
    for node in 0..floors.len() {
        let classes = findings.analysis.classes[node].map(|class| class as u8);
        let alike = (classes, floors[node], ceilings[node]);
        let share = match asked.get(&alike) {
            Some(share) => *share,
            None => share(findings, given, node)?,
        };
        asked.insert(alike, share);
        shares.push(share);
    }
    Ok(shares)
}

fn share(findings: &Findings, given: &Given, node: usize) -> Result<Totals, Refusal> {
    let Bounds { floors, ceilings } = given.bounds();
    let alone = |visits: &[u16]| {
        let mut alone = vec![0; visits.len()];
        alone[node] = visits[node];
        alone
    };
    let bounds = Bounds {
        floors: &alone(floors),
        ceilings: &alone(ceilings),
    };
    let Totals { low, high } = total(&findings.known.chart, findings.analysis.table(), given.costs, bounds)?;
    let loads = difference(given) * kept(findings, given, node).count() as u64;
    Ok(Totals {
        low,
        high: high.saturating_sub(loads),
    })
}

pub fn sum(shares: &[Totals], loads: &[Load]) -> Totals {
    let loads: u64 = loads.iter().map(|load| load.adds).sum();
    Totals {
        low: shares.iter().map(|share| share.low).sum(),
        high: shares.iter().map(|share| share.high).sum::<u64>() + loads,
    }
}

/// A part of a whole in thousandths, to the nearest; nothing where the whole is 0.
pub fn thousandths(part: u64, whole: u64) -> Option<u64> {
    (2 * 1000 * part + whole).checked_div(2 * whole)
}

/// Thousandths as they are told, as `17.2 %`.
pub fn percent(thousandths: u64) -> String {
    format!("{}.{} %", thousandths / 10, thousandths % 10)
}
