//! Very many nodes and names: one too many is told at its line, and names that there are not are told soon.

use crate::hostile::{soon, HEAD, MOST};
use crate::trying::{chain, errors, known, Tried};
use veilbuzz::NODES;

/// So many lines, each by its number.
fn lines(count: usize, line: impl Fn(usize) -> String) -> String {
    (0..count).map(line).collect()
}

#[test]
fn the_most_nodes_that_there_can_be() {
    assert_eq!(soon(chain(NODES)), Tried::Answered);
    assert_eq!(known(chain(NODES).as_bytes()).nodes.len(), NODES);
}

/// No golden file has this message: the limit is spelled in no other file.
#[test]
fn a_node_too_many_is_told_at_its_line() {
    let all = errors(chain(NODES + 3).as_bytes());
    assert_eq!(all.len(), 1, "{all:?}");
    let what = format!("this is one node too many; there are {} in all", NODES + 3);
    assert_eq!(all[0].at("what").text(), what);
    assert_eq!(all[0].at("line").count(), 2 + NODES + 1);
    let may = format!("1 to {NODES} lines of nodes, 'NAME: ..'");
    assert_eq!(all[0].at("may_stand").text(), may);
    assert_eq!(all[0].at("refusal").count(), 5);
}

#[test]
fn ten_thousand_nodes_are_refused_whatever_they_lead_to() {
    let count = 10_000;
    let texts = [
        chain(count),
        chain(count).replace("entry n0", "entry n9999"),
        HEAD.to_string() + &lines(count, |node| format!("n{node}:\n")),
        HEAD.to_string() + &lines(count, |node| format!("n{node}: -> n{}, a\n", count - 1 - node)),
    ];
    for text in texts {
        let errors = errors(text.as_bytes());
        let codes: Vec<&str> = errors.iter().map(|error| error.at("code").text()).collect();
        assert_eq!(codes, ["refused-5"], "{errors:?}");
        assert_eq!(soon(&text), Tried::Faults(1));
    }
}

/// A name as long as those are that near ones are looked for.
fn long(letter: &str, number: usize) -> String {
    format!("{}{number:05}", letter.repeat(59))
}

#[test]
fn very_many_names_that_there_are_not_are_told_soon() {
    let nodes = NODES - 1;
    let texts = [
        lines(nodes, |node| format!("n{node}: -> m{node}, o{node}\n")),
        lines(nodes, |node| {
            format!("{}: -> {}, {}\n", long("n", node), long("x", node), long("y", node))
        }),
        lines(nodes, |node| format!("n{node}: read m{node}\n")) + &lines(300_000, |at| format!("at a{at:x}=0\n")),
        lines(nodes, |node| format!("n{node}: read {}\n", long("m", node)))
            + &lines(50_000, |at| format!("at {}=0\n", long("a", at))),
    ];
    for text in texts {
        let text = format!("{HEAD}{text}");
        assert!(text.len() <= MOST);
        assert_eq!(soon(text), Tried::Faults(20));
    }
}
