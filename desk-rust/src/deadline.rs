//! `./desk deadline`: whether the costs of every walk keep to a deadline.

use crate::answer::Answer;
use crate::deadline_json::json;
use crate::deadline_words::words;
use crate::due::Due;
use crate::findings::Findings;
use crate::known::Known;
use crate::trouble::{Trouble, ANSWERED, NOT_MET};

pub fn deadline(known: &Known, hit: Option<u16>, miss: Option<u16>) -> Result<Answer, Trouble> {
    let findings = Findings::of(known)?;
    let due = Due::of(&findings, hit, miss)?;
    let status = if due.met() { ANSWERED } else { NOT_MET };
    Ok(Answer::new(words(&due), json(&due)).ending(status))
}
