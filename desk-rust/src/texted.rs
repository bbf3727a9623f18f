//! From a chart back to words.

use crate::cache::Cache;
use crate::findings::targets;
use crate::known::{Known, Node};
use crate::reference::{reference, Reference};
use crate::words::address;
use std::fmt::Write;

const HEAD: &str = "# Made from a chart by './desk text'. A chart has no names, no costs and no visits.\n";

/// The text of a chart. What the desk makes of it is the same chart again.
pub fn texted(known: &Known) -> String {
    let cache = Cache::of(&known.header);
    let (line, sets, ways, start) = (cache.line, cache.sets, cache.ways, cache.start());
    let mut text = HEAD.to_string();
    let _ = writeln!(text, "cache  line {line}  sets {sets}  ways {ways}  start {start}");
    let _ = writeln!(text, "entry  {}\n", known.nodes[known.header.entry].name);
    let row = |node: &Node| [format!("{}:", node.name), doing(node), leading(known, node)];
    let rows: Vec<[String; 3]> = known.nodes.iter().map(row).collect();
    let width = |column: usize| rows.iter().map(|row| row[column].chars().count()).max().unwrap_or(0);
    let (names, doings) = (width(0), width(1));
    for [name, doing, leading] in &rows {
        let row = format!("{name:names$}  {doing:doings$}  {leading}");
        let _ = writeln!(text, "{}", row.trim_end());
    }
    text
}

fn doing(node: &Node) -> String {
    match reference(node) {
        Some(Reference {
            verb,
            address: at,
            bytes,
            ..
        }) => format!("{verb:5} {} size {bytes}", address(at)),
        None => String::new(),
    }
}

fn leading(known: &Known, node: &Node) -> String {
    let names: Vec<&str> = targets(&node.fields)
        .map(|target| known.nodes[target].name.as_str())
        .collect();
    match names.as_slice() {
        [] => String::new(),
        names => format!("-> {}", names.join(", ")),
    }
}
