//! The map of sets on a page: each set as a field of a heat map, and who competes in those that are over-full.

use crate::findings::Findings;
use crate::markup::escaped;
use crate::sets::Map;
use crate::words::{block, counted};

/// So many fields stand in a row at the most.
const ROW: usize = 16;

pub fn sets(findings: &Findings) -> String {
    let map = Map::of(findings);
    let ways = findings.known.header.ways;
    let sets = 1 << findings.known.header.sets;
    let word = if sets > ROW { "" } else { "set " };
    let fields: String = (0..sets as u32)
        .map(|set| field(word, set, map.competing_in(set), ways))
        .collect();
    let legend = format!(
        "<p>In each field: the set's number, and how many blocks compete for the {} of that set. Over-full, and striped, is a set with more blocks \
         than ways: a block there can be pushed out before its turn comes again. The darkest have more than twice as many.</p>\n",
        counted(ways, "way")
    );
    format!(
        "{legend}<ul class=\"heat\" style=\"grid-template-columns: repeat({}, minmax(0, 1fr))\">\n{fields}</ul>\n{}",
        sets.min(ROW),
        table(findings, &map)
    )
}

/// A set: its number, after a word if there is room for it, how many blocks compete there, and by a class how full that is.
fn field(word: &str, set: u32, competing: usize, ways: usize) -> String {
    let (class, words) = match competing {
        0 => ("empty", "no block"),
        _ if competing < ways => ("some", "has room"),
        _ if competing == ways => ("full", "just full"),
        _ if competing <= 2 * ways => ("over", "over-full"),
        _ => ("far over", "over-full by more than twice"),
    };
    format!(
        "<li class=\"{class}\" title=\"set {set}: {} for {}, {words}\">{word}{set}<b>{competing}</b></li>\n",
        counted(competing, "block"),
        counted(ways, "way")
    )
}

/// The blocks of each set that has any, and the nodes that touch them.
fn table(findings: &Findings, map: &Map) -> String {
    let rows: String = map
        .blocks()
        .map(|(set, number, reached, unreached)| {
            let by = match reached {
                [] => format!("not counted, unreached: {}", findings.names(unreached, "and")),
                reached => findings.names(reached, "and"),
            };
            format!(
                "<tr><td class=\"number\">{set}</td><td class=\"place\">{}</td><td>{}</td></tr>\n",
                block(number),
                escaped(&by)
            )
        })
        .collect();
    match rows.is_empty() {
        true => "<p>No node touches a block: all sets stay as they are.</p>\n".into(),
        false => format!(
            "<div class=\"wide\"><table>\n<thead><tr><th class=\"number\">set</th><th>block</th><th>touched by</th></tr></thead>\n\
             <tbody>\n{rows}</tbody></table></div>\n"
        ),
    }
}
