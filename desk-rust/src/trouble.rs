//! Why there is no answer, and the exit status of it.

use crate::json::{object, Value};
use crate::problem::Problems;
use crate::source::Source;
use veilbuzz::Refusal;

pub enum Trouble {
    /// A text has faults, or what it says was refused.
    Text(Source, Problems),
    /// A chart of bytes was refused.
    Refused { file: String, refusal: Refusal },
    /// Something else stands in the way of an answer to a rightful question.
    Unanswered { what: String, mend: String },
    /// The desk was called in a way that it does not know.
    Usage(String),
    /// A file could not be read or written.
    Files(String),
}

/// After an answer.
pub const ANSWERED: u8 = 0;
/// After a refusal, or faults in a text.
pub const REFUSED: u8 = 1;
/// Where the call is wrong, or a file cannot be read or written.
pub const NOT_ASKED: u8 = 2;
/// After an answer, if a deadline is not met.
pub const NOT_MET: u8 = 3;

/// Whether the place of a refusal is a node (rule 11.0).
fn at_a_node(refusal: &Refusal) -> bool {
    matches!(refusal.number, 9 | 10 | 16 | 17 | 25)
}

impl Trouble {
    pub fn status(&self) -> u8 {
        match self {
            Trouble::Text(..) | Trouble::Refused { .. } | Trouble::Unanswered { .. } => REFUSED,
            Trouble::Usage(_) | Trouble::Files(_) => NOT_ASKED,
        }
    }

    /// The first thing that is wrong, in a sentence.
    pub fn what(&self) -> String {
        match self {
            Trouble::Text(_, problems) => problems
                .leading()
                .map_or(String::new(), |problem| problem.found.clone()),
            Trouble::Refused { refusal, .. } => refusal.to_string(),
            Trouble::Unanswered { what, .. } | Trouble::Usage(what) | Trouble::Files(what) => what.clone(),
        }
    }

    /// What may be done about that, where it is known.
    pub fn mend(&self) -> Option<String> {
        match self {
            Trouble::Text(_, problems) => problems.leading()?.mend.clone(),
            Trouble::Unanswered { mend, .. } => Some(mend.clone()),
            _ => None,
        }
    }

    /// For people: lines, the last of them ended.
    pub fn words(&self) -> String {
        match self {
            Trouble::Text(source, problems) => problems.words(source),
            Trouble::Refused { file, refusal } => {
                let number = refusal.number;
                format!("{file}: {refusal}\n    './desk refusal {number}' says more\n")
            }
            Trouble::Unanswered { what, mend } => format!("desk: {what}\n    {mend}\n"),
            Trouble::Usage(what) | Trouble::Files(what) => format!("desk: {what}\n"),
        }
    }

    /// For scripts: an object with a list `errors`.
    pub fn json(&self) -> Value {
        let errors = match self {
            Trouble::Text(source, problems) => problems.json(source),
            Trouble::Refused { file, refusal } => vec![object([
                ("code", "refused".into()),
                ("file", file.as_str().into()),
                ("refusal", refusal.number.into()),
                ("node", at_a_node(refusal).then_some(refusal.place).into()),
                ("what", refusal.to_string().into()),
            ])],
            Trouble::Unanswered { what, mend } => vec![object([
                ("code", "unanswered".into()),
                ("what", what.as_str().into()),
                ("mend", mend.as_str().into()),
            ])],
            Trouble::Usage(what) => vec![object([("code", "usage".into()), ("what", what.as_str().into())])],
            Trouble::Files(what) => vec![object([("code", "files".into()), ("what", what.as_str().into())])],
        };
        object([("errors", Value::List(errors))])
    }
}
