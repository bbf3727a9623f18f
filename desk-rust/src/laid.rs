//! Where all of a picture is, as Graphviz lays it out.

use crate::dot_source::INCH;
use crate::plan::Plan;
use crate::spline::{Point, Spline};
use std::collections::BTreeMap;
use std::str::SplitAsciiWhitespace;

/// In pixels, to the right and down.
#[derive(Debug, PartialEq)]
pub struct Laid {
    /// The middle of each item.
    pub items: Vec<Point>,
    /// Of each arrow, from the middle of an item to that of another.
    pub arrows: Vec<Spline>,
}

/// Nothing is so far away.
const FARTHEST: f64 = 1e7;

type Words<'a> = SplitAsciiWhitespace<'a>;

/// What `dot -Tplain` writes, if it has each item and each arrow.
pub fn laid(plain: &str, plan: &Plan) -> Option<Laid> {
    let (mut items, mut arrows) = (BTreeMap::new(), BTreeMap::new());
    for line in plain.lines() {
        let mut words = line.split_ascii_whitespace();
        match words.next() {
            Some("node") => {
                items.insert(words.next()?, point(&mut words)?);
            }
            Some("edge") => {
                let ends = (words.next()?, words.next()?);
                arrows.insert(ends, spline(&mut words)?);
            }
            _ => {}
        }
    }
    let named: Vec<String> = plan.items.iter().map(|item| item.part.to_string()).collect();
    let item = |name: &String| items.get(name.as_str()).copied();
    let spline = |from: usize, to: usize| arrows.get(&(named[from].as_str(), named[to].as_str())).cloned();
    Some(Laid {
        items: named.iter().map(item).collect::<Option<_>>()?,
        arrows: plan
            .arrows
            .iter()
            .map(|arrow| spline(arrow.from, arrow.to))
            .collect::<Option<_>>()?,
    })
}

fn number(words: &mut Words) -> Option<f64> {
    let number = words.next()?.parse::<f64>().ok()? * INCH;
    (number.abs() <= FARTHEST).then_some(number)
}

/// Graphviz counts upwards.
fn point(words: &mut Words) -> Option<Point> {
    Some([number(words)?, -number(words)?])
}

fn spline(words: &mut Words) -> Option<Spline> {
    let count: usize = words.next()?.parse().ok()?;
    let points: Option<Spline> = (0..count).map(|_| point(words)).collect();
    points.filter(|points| count >= 4 && points.len() % 3 == 1)
}
