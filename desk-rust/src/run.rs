//! Each command, from its call to its answer.

use crate::answer::Answer;
use crate::args::{Call, Command};
use crate::compare::compare;
use crate::deadline::deadline;
use crate::draw::draw;
use crate::explained::refusal;
use crate::input::{input, Input, STANDARD_INPUT};
use crate::json::{list, object, Value};
use crate::known::Known;
use crate::near::nearest;
use crate::page::page;
use crate::report::report;
use crate::texted::texted;
use crate::totals::totals;
use crate::trouble::Trouble;
use crate::why::why;
use crate::written::{write, Goal};
use std::borrow::Cow;

/// What goes to standard output: an answer, or what a command has made.
pub enum Output {
    Answer(Answer),
    Bytes(Vec<u8>),
}

const TEMPLATE: &str = include_str!("template.txt");

pub fn run(call: &Call) -> Result<Output, Trouble> {
    let file = || input(&call.words[0]);
    let answer = match call.command {
        Command::Report => report(&file()?.known()?),
        Command::Totals => totals(&file()?.known()?, call.hit, call.miss),
        Command::Why => {
            let known = file()?.known()?;
            why(&known, node(call, &known, &call.words[1].to_string_lossy())?)
        }
        Command::Deadline => deadline(&file()?.known()?, call.hit, call.miss),
        Command::Draw => return draw(call, &file()?.known()?),
        Command::Page => return page(call, &file()?.known()?),
        Command::Compare => both(call),
        Command::Chart => return chart(call, file()?),
        Command::Text => text(call, file()?),
        Command::New => Ok(Answer::plain(TEMPLATE, object([("text", TEMPLATE.into())]))),
        Command::Refusal => refusal(call.words.first().map(|number| number.to_string_lossy())),
    };
    answer.map(Output::Answer)
}

/// Two charts side by side.
fn both(call: &Call) -> Result<Answer, Trouble> {
    let [one, other] = [&call.words[0], &call.words[1]];
    if one == STANDARD_INPUT && other == STANDARD_INPUT {
        return Err(Trouble::Usage(
            "standard input is one chart; name a file for the other".into(),
        ));
    }
    compare(&input(one)?.known()?, &input(other)?.known()?, call.hit, call.miss)
}

/// The node that is asked about, by its name.
fn node(call: &Call, known: &Known, name: &str) -> Result<usize, Trouble> {
    let numbered = name.parse().ok().and_then(|number: usize| known.nodes.get(number));
    known.named(name).ok_or_else(|| Trouble::Unanswered {
        what: format!("{} has no node '{name}'", known.file),
        mend: match (
            numbered,
            nearest(name, known.nodes.iter().map(|node| node.name.as_str())),
        ) {
            (Some(node), _) => format!("node {name} is called '{}'", node.name),
            (None, Some(near)) => format!("is '{near}' meant?"),
            (None, None) => format!("'./desk report {}' lists its nodes", asked_about(call)),
        },
    })
}

/// The file as it was named in the call.
fn asked_about(call: &Call) -> Cow<'_, str> {
    call.words[0].to_string_lossy()
}

/// Writes the chart that a text says.
fn chart(call: &Call, input: Input) -> Result<Output, Trouble> {
    let goal = Goal::of(call, "chart", "chart mine.txt -o mine.chart")?;
    if input.is_chart() {
        return Err(Trouble::Unanswered {
            what: format!("{} is a chart of bytes already", input.file),
            mend: format!("'./desk text {}' puts it into words", asked_about(call)),
        });
    }
    let known = input.known()?;
    let more = vec![
        ("blocks", known.header.blocks.into()),
        ("names", list(known.nodes.iter().map(|node| node.name.as_str()))),
    ];
    goal.reached(&known, known.chart.clone(), more)
}

/// Puts a chart of bytes into words.
fn text(call: &Call, input: Input) -> Result<Answer, Trouble> {
    if input.is_text() {
        return Err(Trouble::Unanswered {
            what: format!("{} is a text already", input.file),
            mend: format!(
                "'./desk chart {} -o X.chart' makes a chart of bytes of it",
                asked_about(call)
            ),
        });
    }
    let file = input.file.clone();
    let text = texted(&input.read()?);
    let json = |written: Value| {
        object([
            ("file", file.as_str().into()),
            ("written", written),
            ("text", text.as_str().into()),
        ])
    };
    match &call.output {
        Some(output) if output != STANDARD_INPUT => {
            write(call, output, text.as_bytes())?;
            let output = output.to_string_lossy();
            Ok(Answer::plain(
                &format!("{output}: {} bytes of text\n", text.len()),
                json(output.as_ref().into()),
            ))
        }
        _ => Ok(Answer::plain(&text, json(Value::Null))),
    }
}
