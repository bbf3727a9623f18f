//! What a refusal means: its words, and the section of the page that explains all of them.

use crate::answer::Answer;
use crate::json::{list, object, Value};
use crate::trouble::Trouble;
use crate::words::listed;
use std::borrow::Cow;
use veilbuzz::Refusal;

const PAGE: &str = include_str!("../../docs/REFUSALS.md");

/// A refusal's number, what was found and what to do; and of its section of the page the title, and what follows.
struct Explained {
    number: usize,
    found: &'static str,
    mend: &'static str,
    title: &'static str,
    text: &'static str,
}

/// What one refusal means, or all of them where none is named.
pub fn refusal(number: Option<Cow<str>>) -> Result<Answer, Trouble> {
    let Some(number) = number else {
        let all = all();
        let lines = all.iter().map(|each| format!("{:>3}  {}\n", each.number, each.found));
        let json = all.iter().map(|each| object(each.json()));
        return Ok(Answer::plain(
            &lines.collect::<String>(),
            object([("refusals", list(json))]),
        ));
    };
    let one = explained(&number)?;
    let [number, title, found, mend] = one.json();
    let json = object([number, title, found, mend, ("text", one.text.into())]);
    let head = format!("Refusal {}: {}\nWhat to do: {}", one.number, one.found, one.mend);
    Ok(Answer::plain(&format!("{head}\n\n{}\n", one.text), json))
}

impl Explained {
    /// All of it but for the text.
    fn json(&self) -> [(&'static str, Value); 4] {
        [
            ("number", self.number.into()),
            ("title", self.title.into()),
            ("found", self.found.into()),
            ("mend", self.mend.into()),
        ]
    }
}

/// All of them, in order.
fn all() -> Vec<Explained> {
    PAGE.split("\n## ").skip(1).filter_map(section).collect()
}

/// A section that begins as '9. A record breaks its rules'; others are none.
fn section(section: &'static str) -> Option<Explained> {
    let (heading, text) = section.split_once('\n')?;
    let (number, title) = heading.split_once(". ")?;
    let number = number.parse().ok()?;
    let refusal = Refusal { number, place: 0 };
    Some(Explained {
        number,
        found: refusal.found()?,
        mend: refusal.mend()?,
        title,
        text: text.trim(),
    })
}

/// The one of a number.
fn explained(number: &str) -> Result<Explained, Trouble> {
    let wanted = number.parse().ok();
    let found = all().into_iter().find(|section| Some(section.number) == wanted);
    found.ok_or_else(|| {
        let runs = listed(&runs(), "and");
        Trouble::Usage(format!("there is no refusal '{number}'; they are numbered {runs}"))
    })
}

/// The numbers that there are, as `from 1 to 18`: some are set aside.
fn runs() -> Vec<String> {
    let numbers: Vec<usize> = all().iter().map(|section| section.number).collect();
    let runs = numbers.chunk_by(|one, next| one + 1 == *next);
    runs.map(|run| format!("from {} to {}", run[0], run[run.len() - 1]))
        .collect()
}
