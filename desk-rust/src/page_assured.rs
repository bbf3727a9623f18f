//! What stands behind a page: what is proved, what is assumed, which chart, which text and which tool it is.

use crate::counted::By;
use crate::due::Due;
use crate::findings::Findings;
use crate::page_html::Told;
use crate::sha256::sha256;
use crate::totals::Totals;
use veilbuzz::VERSION;

pub fn assured(findings: &Findings, totals: &Told<Totals>, due: &Told<Due>) -> String {
    format!(
        "<p class=\"assured\"><b>Proved</b>, by Veilbuzz's definitions and machine-checked proofs: {}. <b>Assumed</b>: {}. Compilers, this page and \
         its picture are tested, and not proved. {} <b>The tool</b> is Veilbuzz {VERSION}.</p>\n",
        proved(totals, due).join("; "),
        assumed(findings, totals, due).join("; "),
        sums(findings)
    )
}

/// What is claimed of totals, bounds and times only where there are such.
fn proved(totals: &Told<Totals>, due: &Told<Due>) -> Vec<&'static str> {
    let mut proved = vec![
        "for every walk along the arrows and all contents that the start allows, a touch that is called a hit hits, one that is called a \
         miss misses, and of the touches of one block that are called kept one at most misses",
    ];
    if let Ok(totals) = totals {
        if totals.plain.is_some() {
            proved.push("a walk with these visits costs no less than the low total and no more than the high one");
        }
        let bounded = totals.bounded.as_ref();
        if bounded.is_some_and(|bounded| bounded.low.is_ok()) {
            proved.push("a walk that keeps visits and facts costs no less than the low bound");
        }
        if bounded.is_some_and(|bounded| bounded.high.is_ok()) {
            proved.push("a walk that keeps visits and facts costs no more than the high bound");
        }
    }
    if due.as_ref().is_ok_and(|due| due.proved == Some(due.met())) {
        proved.push("the verdict on the deadline, as far as the totals go");
    }
    proved
}

fn assumed(findings: &Findings, totals: &Told<Totals>, due: &Told<Due>) -> Vec<&'static str> {
    let mut assumed = vec![
        "that the chart is the program: its arrows, its addresses and the size of each reference",
        "that the cache is as it is told here, replaces the least recently used line of a set, and loads a line on a write too",
        "that nothing else touches it: no interrupt, no other task or core, no prefetching",
    ];
    if totals.is_ok() {
        assumed.push("how often each node is visited, and what a hit and a miss cost");
        if !findings.known.facts.is_empty() {
            assumed.push("the facts");
        }
    }
    if let Ok(due) = due {
        if due.high.by == By::Bound {
            assumed.push("that the desk has multiplied bound and period rightly, which is tested and not proved");
        }
        assumed.push("how long a cycle takes, and that the overhead is all the time that is not spent on memory");
    }
    assumed
}

/// The checksums by which chart and text are known again.
fn sums(findings: &Findings) -> String {
    let known = findings.known;
    let sum = |bytes: &[u8]| format!("<code class=\"checksum\">{}</code>", sha256(bytes));
    let chart = format!(
        "<b>The chart</b> has {} bytes, with the SHA-256 checksum {}",
        known.chart.len(),
        sum(&known.chart)
    );
    match &known.text {
        Some(text) => format!(
            "{chart}, which <code>./desk chart FILE -o X.chart</code> and <code>sha256sum X.chart</code> give again. <b>Its text</b>, which alone has \
             names, costs, visits, facts and times, has the checksum {}.",
            sum(text.source.text.as_bytes())
        ),
        None => format!("{chart}, which <code>sha256sum FILE</code> gives again."),
    }
}
