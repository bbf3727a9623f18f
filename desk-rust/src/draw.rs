//! `./desk draw`: a chart as a picture.

use crate::args::Call;
use crate::dot_source::full;
use crate::findings::Findings;
use crate::known::Known;
use crate::picture::picture;
use crate::plan::Plan;
use crate::run::Output;
use crate::trouble::Trouble;
use crate::written::Goal;
use std::path::Path;

pub fn draw(call: &Call, known: &Known) -> Result<Output, Trouble> {
    let goal = match (call.dot, &call.output) {
        (true, None) => Goal::standard_output(call, "source", "--dot"),
        (true, _) => Goal::of(call, "source", ""),
        (false, _) => Goal::of(call, "picture", "draw mine.txt -o mine.svg"),
    }?;
    if let Some(kind) = other_kind(call) {
        return Err(Trouble::Usage(format!(
            "a picture is written as SVG, and not as {kind}; name it X.svg, or have Graphviz draw it: ./desk draw FILE --dot | dot -T{kind} > X.{kind}"
        )));
    }
    let findings = Findings::of(known)?;
    let made = match call.dot {
        true => full(&findings, &Plan::of(&findings)),
        false => picture(&findings)?,
    };
    goal.reached(known, made.into_bytes(), vec![])
}

/// Other kinds of pictures, by the ends of their names.
const OTHERS: [&str; 4] = ["png", "pdf", "jpg", "ps"];

/// The other kind of picture that the name of a file promises.
fn other_kind(call: &Call) -> Option<&'static str> {
    let end = Path::new(call.output.as_ref()?).extension()?;
    OTHERS
        .into_iter()
        .find(|kind| !call.dot && end.eq_ignore_ascii_case(kind))
}
