//! The lines of two texts that are not the same in both, each beside its other version; and the words of them that differ.

use crate::statements::Statement;
use std::collections::{HashMap, VecDeque};

/// A line that differs: in one text, in the other, or in both.
pub struct Differing<'a> {
    pub one: Option<&'a Statement>,
    pub other: Option<&'a Statement>,
}

/// As they stand in the one text, those that it does not have by their place in the other. The order of lines makes no difference.
pub fn differing<'a>(one: &'a [Statement], other: &'a [Statement]) -> Vec<Differing<'a>> {
    let (alike, left_of_other) = paired(one, other, |statement| &statement.said);
    let left_of_one = alike.into_iter().filter(|(_, same)| same.is_none());
    let left_of_one: Vec<&Statement> = left_of_one.map(|(statement, _)| statement).collect();
    let (versions, only_in_other) = paired(left_of_one, left_of_other, |statement| &statement.about);
    let versions = versions
        .into_iter()
        .map(|(one, other)| Differing { one: Some(one), other });
    let only = only_in_other.into_iter().map(|other| Differing {
        one: None,
        other: Some(other),
    });
    let mut all: Vec<Differing> = versions.chain(only).collect();
    all.sort_by_key(|line| line.one.or(line.other).map(|statement| statement.line));
    all
}

/// Each of the one's with the first of the other's of the same key that is not taken yet; and what is left of the other's.
fn paired<'a>(
    one: impl IntoIterator<Item = &'a Statement>,
    other: impl IntoIterator<Item = &'a Statement>,
    key: fn(&Statement) -> &String,
) -> (Vec<(&'a Statement, Option<&'a Statement>)>, Vec<&'a Statement>) {
    let mut free: HashMap<&String, VecDeque<&Statement>> = HashMap::new();
    for statement in other {
        free.entry(key(statement)).or_default().push_back(statement);
    }
    let mut take = |statement| free.get_mut(key(statement)).and_then(VecDeque::pop_front);
    let pairs = one.into_iter().map(|statement| (statement, take(statement))).collect();
    let mut left: Vec<&Statement> = free.into_values().flatten().collect();
    left.sort_by_key(|statement| statement.line);
    (pairs, left)
}

/// The places of the words of each version that the other has otherwise: between those that are the same at the start and at the end, and of
/// as many in both, those that are not the same.
pub fn words_apart(one: &Statement, other: &Statement) -> [Vec<usize>; 2] {
    let [one, other]: [Vec<&str>; 2] = [one, other].map(|statement| statement.said.split(' ').collect());
    let start = one.iter().zip(&other).take_while(|(one, other)| one == other).count();
    let [left, left_of_other] = [&one, &other].map(|words| words.len() - start);
    let from_the_end = one.iter().rev().zip(other.iter().rev());
    let end = from_the_end
        .take(left.min(left_of_other))
        .take_while(|(one, other)| one == other)
        .count();
    let apart = |place: &usize| left != left_of_other || one[*place] != other[*place];
    [&one, &other].map(|words| (start..words.len() - end).filter(apart).collect())
}
