//! The table of what each node and each first load adds to the totals.

use crate::findings::Findings;
use crate::known::Visits;
use crate::loads::Load;
use crate::paint::Colour;
use crate::shares::{percent, thousandths};
use crate::table::{Cell, Side, Table};
use crate::totals::{Plain, Share};
use crate::words::{block, counted};
use std::cmp::Reverse;
use veilbuzz::{Class, TOUCHES};

type Row = [Cell; 6];

/// The largest share of the high total first, and of equal ones those of nodes.
pub fn shares(findings: &Findings, plain: &Plain) -> Table<6> {
    let mut table = Table::new([
        ("node", Side::Left),
        ("class", Side::Left),
        ("visits", Side::Right),
        ("low", Side::Right),
        ("high", Side::Right),
        ("of high", Side::Right),
    ]);
    let (none, some): (Vec<&Share>, Vec<&Share>) = plain.shares.iter().partition(|share| adds_nothing(share));
    let nodes = some.into_iter().map(|share| (share.adds.high, node(findings, share)));
    let loads = plain.loads.iter().filter(|load| load.adds > 0);
    let loads = loads.map(|load| (load.adds, first_load(plain, load)));
    let mut rows: Vec<(u64, Row)> = nodes.chain(loads).collect();
    rows.sort_by_key(|(high, _)| Reverse(*high));
    for (_, row) in rows {
        table.row(row);
    }
    if !none.is_empty() {
        let from = format!("nothing from {}", counted(none.len(), "node"));
        table.row([from.into(), blank(), blank(), "0".into(), "0".into(), blank()]);
    }
    let [low, high] = [plain.sum.low, plain.sum.high].map(|sum| sum.to_string().into());
    let sum = Cell::coloured("sum of shares", Some(Colour::Bold));
    table.row([sum, blank(), blank(), low, high, blank()]);
    table
}

fn blank() -> Cell {
    Cell::from("")
}

fn node(findings: &Findings, share: &Share) -> Row {
    let node = findings.node(share.node);
    [
        node.name.as_str().into(),
        classes(findings.analysis.classes[share.node]),
        node.visits.map(visits).unwrap_or_default().into(),
        share.adds.low.to_string().into(),
        share.adds.high.to_string().into(),
        part(share.thousandths),
    ]
}

fn first_load(plain: &Plain, load: &Load) -> Row {
    [
        format!("block {}, first load", block(load.of.block)).into(),
        blank(),
        blank(),
        "0".into(),
        load.adds.to_string().into(),
        part(thousandths(load.adds, plain.totals.high)),
    ]
}

/// A part of the high total.
fn part(thousandths: Option<u64>) -> Cell {
    let part = thousandths.map(percent);
    part.unwrap_or_default().into()
}

fn adds_nothing(share: &Share) -> bool {
    share.adds.low == 0 && share.adds.high == 0
}

/// The classes of the touches that a node makes.
pub fn classes(classes: [Class; TOUCHES]) -> Cell {
    match classes {
        [class, Class::None] | [class @ Class::Unreached, _] => Cell::coloured(class.to_string(), Colour::of(class)),
        [first, second] => format!("{first} {second}").into(),
    }
}

/// As a text says them.
pub fn visits(Visits { floor, ceiling }: Visits) -> String {
    match floor == ceiling {
        true => floor.to_string(),
        false => format!("{floor}..{ceiling}"),
    }
}
