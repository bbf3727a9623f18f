//! Comparing two texts within this program, for tests that hold what is told to what is so.

use crate::json::{read, Json};
use crate::trying::known;
use desk::compare::compare;
use desk::known::Known;
use desk::report::report;
use desk::totals::totals;
use std::collections::BTreeMap;

/// What is told of two charts, for scripts.
pub fn told(one: &Known, other: &Known) -> Json {
    read(
        &compare(one, other, None, None)
            .unwrap_or_else(|trouble| panic!("{}", trouble.words()))
            .json()
            .to_string(),
    )
}

/// The same of two texts.
pub fn compared(one: &str, other: &str) -> Json {
    told(&known(one.as_bytes()), &known(other.as_bytes()))
}

/// And in words.
pub fn words(one: &str, other: &str) -> String {
    let answer = compare(&known(one.as_bytes()), &known(other.as_bytes()), None, None);
    answer
        .unwrap_or_else(|trouble| panic!("{}", trouble.words()))
        .words(false)
}

/// The class words of each node, as the report has them.
pub fn classes(known: &Known) -> BTreeMap<String, Json> {
    let report = report(known).unwrap_or_else(|trouble| panic!("{}", trouble.words()));
    let nodes = read(&report.json().to_string());
    let named = |node: &Json| (node.at("name").text().to_string(), node.at("classes").clone());
    nodes.at("nodes").list().iter().map(named).collect()
}

/// The low and the high total, as `totals` has them; null where there are none.
pub fn low_and_high(known: &Known) -> Json {
    match totals(known, None, None) {
        Ok(answer) => read(&answer.json().to_string()).at("totals").clone(),
        Err(_) => Json::Null,
    }
}

/// How many nodes that both have are told to be of other classes.
pub fn apart(one: &BTreeMap<String, Json>, other: &BTreeMap<String, Json>) -> usize {
    let differ = |(name, classes): &(&String, &Json)| other.get(*name).is_some_and(|there| there != *classes);
    one.iter().filter(differ).count()
}
