//! Visits that no walk can make, as far as a search along the arrows tells. Of such all can be said, also that they are in time.

use crate::again::never_again;
use crate::findings::{targets, Findings};
use std::mem::replace;

/// Why no walk has the visits that a text says, if that is seen.
pub fn unwalked(findings: &Findings) -> Option<String> {
    let entry = findings.known.header.entry;
    if barred(findings, entry) {
        return Some(format!(
            "every walk visits its entry, {}, and its visits are 0",
            findings.name(entry)
        ));
    }
    let open = open(findings);
    let wanted = |node: &usize| findings.node(*node).visits.is_some_and(|visits| visits.floor > 0);
    let cut_off: Vec<usize> = (0..open.len()).filter(|node| wanted(node) && !open[*node]).collect();
    if !cut_off.is_empty() {
        let names = findings.names(&cut_off, "and");
        return Some(format!("no walk comes to {names} but through nodes whose visits are 0"));
    }
    let never_again = never_again(findings);
    (!never_again.is_empty()).then(|| {
        let names = findings.names(&never_again, "and");
        format!("no walk comes twice to {names}, and the visits say more: is an arrow back missing, or is this a part of a chart?")
    })
}

/// Whether a node may not be visited.
fn barred(findings: &Findings, node: usize) -> bool {
    findings.node(node).visits.is_some_and(|visits| visits.ceiling == 0)
}

/// Of each node, whether a walk can come to it that visits none which may not be visited.
fn open(findings: &Findings) -> Vec<bool> {
    let mut open = vec![false; findings.known.nodes.len()];
    let mut waiting = vec![findings.known.header.entry];
    while let Some(node) = waiting.pop() {
        if !barred(findings, node) && !replace(&mut open[node], true) {
            waiting.extend(targets(&findings.node(node).fields));
        }
    }
    open
}
