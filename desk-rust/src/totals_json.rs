//! The totals for scripts.

use crate::cache::Cache;
use crate::facts_json::facts;
use crate::findings::Findings;
use crate::json::{list, object, Value};
use crate::known::Visits;
use crate::loads::Load;
use crate::shares::thousandths;
use crate::totals::{Plain, Share, Totals};
use veilbuzz::Costs;

pub fn json(totals: &Totals) -> Value {
    let known = totals.findings.known;
    let plain = totals.plain.as_ref();
    let shares = plain.iter().flat_map(|plain| &plain.shares);
    let loads = plain
        .iter()
        .flat_map(|plain| plain.loads.iter().map(|load| loaded(totals.findings, plain, load)));
    let mut fields = vec![
        ("file", known.file.as_str().into()),
        ("cache", Cache::of(&known.header).json()),
        ("costs", costs(totals.costs)),
        ("totals", plain.map(|plain| both(plain.totals)).into()),
        ("shares", list(shares.map(|share| adds(totals.findings, share)))),
        ("first_loads", list(loads)),
        ("sum_of_shares", plain.map(|plain| both(plain.sum)).into()),
        ("never_again", totals.findings.briefs_json(&totals.never_again)),
    ];
    if let Some(bounded) = &totals.bounded {
        fields.push(("facts", facts(totals, bounded)));
    }
    Value::Object(fields)
}

pub fn costs(Costs { hit, miss }: Costs) -> Value {
    object([("hit", u64::from(hit).into()), ("miss", u64::from(miss).into())])
}

pub fn both(totals: veilbuzz::Totals) -> Value {
    object([("low", totals.low.into()), ("high", totals.high.into())])
}

fn adds(findings: &Findings, share: &Share) -> Value {
    let mut fields = findings.full_json(share.node);
    fields.extend([
        ("visits", findings.node(share.node).visits.map(visits).into()),
        ("low", share.adds.low.into()),
        ("high", share.adds.high.into()),
        ("high_per_mille", share.thousandths.into()),
    ]);
    Value::Object(fields)
}

/// The first load of a block, with the nodes of its kept touches.
fn loaded(findings: &Findings, plain: &Plain, load: &Load) -> Value {
    object([
        ("block", u64::from(load.of.block).into()),
        ("set", u64::from(load.of.set).into()),
        ("nodes", findings.briefs_json(&load.nodes)),
        ("high", load.adds.into()),
        ("high_per_mille", thousandths(load.adds, plain.totals.high).into()),
    ])
}

fn visits(Visits { floor, ceiling }: Visits) -> Value {
    object([
        ("floor", u64::from(floor).into()),
        ("ceiling", u64::from(ceiling).into()),
    ])
}
