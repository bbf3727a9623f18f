//! What was touched since a block was touched last, in sentences.

use crate::findings::Findings;
use crate::paint::Painted;
use crate::since::{Others, Since};
use crate::table::{Side, Table};
use crate::touches::Touch;
use crate::words::{block, counted};
use veilbuzz::Start;

/// Where the block was touched last, and what of its set has been touched since.
pub fn touched_since(findings: &Findings, touch: Touch, since: &Since, out: &mut Painted) {
    let start = match findings.known.header.start {
        Start::Empty => "the cache is empty at the start",
        Start::Unknown => "what the cache holds at the start is unknown",
    };
    if since.last.is_empty() {
        out.line(format!("No walk has touched it before; {start}."));
        return others(findings, touch, "Since the start", &since.others_from_start, out);
    }
    out.line(format!("It was touched last at {}.", findings.names(&since.last, "or")));
    others(findings, touch, "Since then", &since.others, out);
    if since.from_start {
        out.line(format!(
            "A walk can also come from the entry without touching it; {start}."
        ));
        if !since.others_from_start.is_empty() {
            others(findings, touch, "On the way", &since.others_from_start, out);
        }
    }
}

/// Other blocks of a block's set, each with the nodes that touch it.
fn others(findings: &Findings, touch: Touch, then: &str, others: &Others, out: &mut Painted) {
    let set = format!(
        "set {}, which has {}",
        touch.set,
        counted(findings.known.header.ways, "way")
    );
    match others.len() {
        0 => return out.line(format!("{then} no other block of set {} is touched.", touch.set)),
        1 => out.line(format!(
            "{then} 1 other block of {set}, is touched on one walk or another:"
        )),
        count => out.line(format!(
            "{then} {count} other blocks of {set}, are touched on one walk or another:"
        )),
    }
    let mut table = Table::new([("", Side::Left), ("", Side::Left)]);
    for (other, nodes) in others {
        table.row([
            block(*other).into(),
            format!("at {}", findings.names(nodes, "and")).into(),
        ]);
    }
    table.write(2, out);
}
