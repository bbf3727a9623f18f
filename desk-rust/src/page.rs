//! `./desk page`: all of a chart on one page, to hand on.

use crate::args::Call;
use crate::findings::Findings;
use crate::known::Known;
use crate::page_html::html;
use crate::run::Output;
use crate::trouble::Trouble;
use crate::written::Goal;

pub fn page(call: &Call, known: &Known) -> Result<Output, Trouble> {
    let goal = Goal::of(call, "page", "page mine.txt -o mine.html")?;
    let findings = Findings::of(known)?;
    let html = html(&findings, call.hit, call.miss)?;
    goal.reached(known, html.into_bytes(), vec![])
}
