//! The nodes of a page: how many touches of each class there are, and each node with its classes.

use crate::findings::{targets, Findings};
use crate::markup::escaped;
use crate::reference::doing;
use crate::summary::Summary;
use crate::totals_table::visits;
use crate::touches::Touch;
use crate::words::block;
use veilbuzz::Class;

/// How many touches of each class there are, in a row.
pub fn counts(findings: &Findings) -> String {
    let summary = Summary::of(&findings.analysis.classes);
    let touches = summary
        .touches()
        .map(|(class, touches)| format!("<li>{} {touches}</li>\n", mark(class)));
    let nodes = summary.nodes().map(|nodes| format!("<li>{nodes}</li>\n"));
    format!("<ul class=\"counts\">\n{}{}</ul>\n", touches.concat(), nodes.concat())
}

/// A class as a mark: by its word, its shape and its colour.
fn mark(class: Class) -> String {
    format!("<span class=\"class {class}\">{class}</span>")
}

pub fn nodes(findings: &Findings) -> String {
    let rows: String = (0..findings.known.nodes.len())
        .map(|node| row(findings, node))
        .collect();
    format!(
        "<div class=\"wide\"><table>\n<thead><tr><th>node</th><th>class</th><th>does</th><th>goes to</th><th>block</th>\
         <th class=\"number\">set</th><th class=\"number\">visits</th></tr></thead>\n<tbody>\n{rows}</tbody></table></div>\n\
         <p class=\"soft\"><b>hit</b>: on every walk, each time, the block is in the cache. <b>miss</b>: it is not. <b>kept</b>: once the block \
         is loaded it stays, so on any walk one of its kept touches misses at the most. <b>unsure</b>: none of these can be told. \
         <b>unreached</b>: no walk comes there. <b>none</b>: a bare step.</p>\n"
    )
}

/// A node; one that touches two lines has two blocks, sets and classes, one under the other.
fn row(findings: &Findings, number: usize) -> String {
    let node = findings.node(number);
    let entry = if findings.is_entry(number) {
        " <span class=\"soft\">(entry)</span>"
    } else {
        ""
    };
    let to: Vec<String> = targets(&node.fields)
        .map(|target| format!("<bdi>{}</bdi>", escaped(findings.name(target))))
        .collect();
    let to = if to.is_empty() { "(end)".into() } else { to.join(", ") };
    let touches = &findings.touches[number];
    let classes = &findings.analysis.classes[number][..touches.len().max(1)];
    let each = |tell: fn(&Touch) -> String| touches.iter().map(tell).collect::<Vec<_>>().join("<br/>");
    format!(
        "<tr><td><b>{}</b>{entry}</td><td>{}</td><td>{}</td><td>{to}</td><td class=\"place\">{}</td><td class=\"number\">{}</td>\
         <td class=\"number\">{}</td></tr>\n",
        escaped(&node.name),
        classes.iter().map(|class| mark(*class)).collect::<Vec<_>>().join("<br/>"),
        escaped(&doing(node)),
        each(|touch| block(touch.block)),
        each(|touch| touch.set.to_string()),
        node.visits.map(visits).unwrap_or_default(),
    )
}
