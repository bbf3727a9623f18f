//! Large charts: drawn within seconds, however their arrows go, and no arrow is lost.

use crate::drawn::{found, pictured};
use crate::trying::made;
use charts::random::Random;
use desk::far::far;
use desk::loose::below;
use desk::plan::Plan;
use std::time::{Duration, Instant};
use veilbuzz::NODES;

/// It took six on two busy processors.
const SECONDS: Duration = Duration::from_secs(45);

/// A chart of so many nodes, each with the arrows that it is given.
fn of(nodes: usize, arrows: impl Fn(usize) -> Vec<usize>) -> String {
    let mut text = "cache line 16 sets 8 ways 2 start unknown\nentry n0\n".to_string();
    for node in 0..nodes {
        let mut to = arrows(node);
        to.retain(|to| *to < nodes);
        to.dedup();
        let to: Vec<String> = to.iter().map(|to| format!("n{to}")).collect();
        let arrow = if to.is_empty() { "" } else { " -> " };
        text += &format!("n{node}: read {:#x}{arrow}{}\n", 16 * (node * 7 % 60), to.join(", "));
    }
    text
}

/// The most nodes that there can be, with arrows of many kinds.
fn large() -> Vec<(&'static str, String)> {
    let drawn: Vec<[usize; 2]> = {
        let mut random = Random::new(7);
        let mut node = || random.below(NODES as u64) as usize;
        (0..NODES).map(|_| [node(), node()]).collect()
    };
    vec![
        ("a chain", of(NODES, |node| vec![node + 1])),
        ("loops in loops", of(NODES, |node| vec![node + 1, NODES - 1 - node])),
        ("all back to the entry", of(NODES, |node| vec![node + 1, 0])),
        ("all on to the last", of(NODES, |node| vec![node + 1, NODES - 1])),
        (
            "a chain with any arrows",
            of(NODES, |node| vec![node + 1, drawn[node][0]]),
        ),
        ("any arrows", of(NODES, |node| drawn[node].to_vec())),
        ("a tree", of(NODES, |node| vec![2 * node + 1, 2 * node + 2])),
        ("no arrows", of(NODES, |_| vec![])),
    ]
}

#[test]
fn the_largest_charts_are_drawn_in_seconds() {
    for (name, text) in large() {
        let known = made(&text);
        let findings = found(&known);
        let begin = Instant::now();
        let picture = pictured(&findings);
        let taken = begin.elapsed();
        assert!(taken < SECONDS, "{name}: {taken:?}");
        let arrows = known.nodes.iter().map(|node| node.fields.outs as usize).sum::<usize>();
        let paths = picture
            .named("path")
            .into_iter()
            .filter(|path| !path.at("marker-end").is_empty());
        let told = paths.filter(|path| !path.inside[0].text.contains("the "));
        assert_eq!(told.count(), arrows, "{name}");
    }
}

#[test]
fn far_arrows_are_tags_in_large_charts_alone() {
    for (name, text) in large() {
        let known = made(&text);
        let findings = found(&known);
        let far = far(&findings);
        let plain = ["a chain", "a tree", "no arrows"].contains(&name);
        assert_eq!(far.is_empty(), plain, "{name}: {}", far.len());
        // each node but the roots keeps an arrow to it, so the most that are laid out are all but the second ones
        assert!(far.len() <= NODES + 1, "{name}: {}", far.len());
    }
    let small = [60, 40, 7].map(|nodes| of(nodes, |node| vec![node + 1, nodes - 1 - node]));
    for text in small {
        assert!(far(&found(&made(&text))).is_empty(), "{text}");
    }
}

#[test]
fn parts_that_nothing_joins_are_in_columns() {
    let known = made(&of(41, |_| vec![]));
    let plan = Plan::of(&found(&known));
    // forty apart, in three columns
    assert_eq!(plan.below.len(), 40 - 3);
    assert_eq!(plan.below[0], [2, 5]);
    assert_eq!(
        below(plan.items.len(), &[]).len(),
        42 - 3,
        "without arrows the entry and the mark of the end are apart too"
    );
    let joined = made(&of(41, |node| vec![node + 1]));
    assert!(Plan::of(&found(&joined)).below.is_empty());
}
