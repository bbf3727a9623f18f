//! What each node and each first load adds to the totals, on a page, with a bar for it.

use crate::findings::Findings;
use crate::markup::escaped;
use crate::shares::{percent, thousandths};
use crate::totals::Plain;
use crate::totals_table::visits;
use crate::words::block;
use std::cmp::Reverse;

/// A row: what adds so much.
struct Adding {
    name: String,
    classes: String,
    visits: String,
    low: u64,
    high: u64,
    /// By which kind of bar.
    kind: &'static str,
}

/// The largest share of the high total first.
pub fn shares(findings: &Findings, plain: &Plain) -> String {
    let mut all = adding(findings, plain);
    all.sort_by_key(|adding| Reverse(adding.high));
    let largest = all.first().map_or(0, |adding| adding.high);
    let rows: String = all
        .iter()
        .map(|adding| row(adding, plain.totals.high, largest))
        .collect();
    format!(
        "<div class=\"wide\"><table>\n<thead><tr><th>adds</th><th>class</th><th class=\"number\">visits</th><th class=\"number\">low</th>\
         <th class=\"number\">high</th><th class=\"number\">of high</th><th class=\"bar\"></th></tr></thead>\n<tbody>\n{rows}</tbody></table></div>\n\
         <p class=\"soft\">A kept touch adds a hit for each visit; what the first load of its block costs more than a hit has a row of its own, \
         once for each block. What adds nothing is left out.</p>\n"
    )
}

/// All that adds something.
fn adding(findings: &Findings, plain: &Plain) -> Vec<Adding> {
    let nodes = plain.shares.iter().map(|share| {
        let node = findings.node(share.node);
        let classes = &findings.analysis.classes[share.node][..findings.touches[share.node].len()];
        let classes: Vec<String> = classes.iter().map(|class| class.to_string()).collect();
        Adding {
            name: node.name.clone(),
            classes: classes.join(", "),
            visits: node.visits.map(visits).unwrap_or_default(),
            low: share.adds.low,
            high: share.adds.high,
            kind: "node",
        }
    });
    let loads = plain.loads.iter().map(|load| Adding {
        name: format!("block {}, first load", block(load.of.block)),
        classes: String::new(),
        visits: String::new(),
        low: 0,
        high: load.adds,
        kind: "load",
    });
    nodes.chain(loads).filter(|adding| adding.high > 0).collect()
}

/// A row, with its bar beside the largest.
fn row(adding: &Adding, total: u64, largest: u64) -> String {
    let Adding {
        name,
        classes,
        visits,
        low,
        high,
        kind,
    } = adding;
    let share = thousandths(*high, total).map(percent).unwrap_or_default();
    let length = thousandths(*high, largest).unwrap_or(0);
    format!(
        "<tr><td>{}</td><td>{classes}</td><td class=\"number\">{visits}</td><td class=\"number\">{low}</td><td class=\"number\">{high}</td>\
         <td class=\"number\">{share}</td><td class=\"bar\"><span class=\"{kind}\" style=\"width: {}.{}%\"></span></td></tr>\n",
        escaped(name),
        length / 10,
        length % 10
    )
}
