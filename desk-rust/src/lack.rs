//! That something is lacking for an answer: not the whole of it is lost, and it is told in its place.

use crate::known::Known;
use crate::totals_words::visits_not_said;
use crate::trouble::Trouble;

/// What is lacking, and what may be done about it.
#[derive(Clone, PartialEq, Eq)]
pub struct Lack {
    pub what: String,
    pub mend: Option<String>,
}

impl Lack {
    /// Without the name of the chart's file.
    pub fn of(known: &Known, trouble: &Trouble) -> Lack {
        let what = trouble.what();
        let bare = what.strip_prefix(&format!("{}: ", known.file));
        Lack {
            what: bare.map_or(what.clone(), String::from),
            mend: trouble.mend(),
        }
    }

    /// Facts make up for visits that are not said, but for totals they do not.
    pub fn of_visits(known: &Known) -> Lack {
        Lack {
            what: visits_not_said(known),
            mend: None,
        }
    }

    /// Both in one sentence.
    pub fn words(&self) -> String {
        match &self.mend {
            Some(mend) => format!("{}; {mend}", self.what),
            None => self.what.clone(),
        }
    }
}
