//! What lines of facts say, and visits beside them: coefficients and limits.

use crate::trying::made;
use desk::fact::{sayings, Fact, Saying};
use desk::known::Known;

/// A chart of three nodes, of which the second has visits, with these lines.
fn with(lines: &str) -> Known {
    let nodes = "a: read 0x00 -> b, c\nb: -> a visits 2..5\nc: visits 0..1\n";
    made(&format!(
        "cache line 16 sets 1 ways 2 start empty\nentry a\n{nodes}{lines}"
    ))
}

/// A fact as its limit and the numbers of the three nodes.
type Plain = (i64, [i64; 3]);

fn plain(fact: &Fact) -> Plain {
    let numbers = [0, 1, 2].map(|node| fact.coefficients.get(&node).copied().unwrap_or(0));
    assert!(fact.coefficients.values().all(|number| *number != 0), "{fact:?}");
    (fact.limit, numbers)
}

/// What is said at most and at least.
fn both(saying: &Saying) -> [Option<Plain>; 2] {
    [&saying.at_most, &saying.at_least].map(|fact| fact.as_ref().map(plain))
}

#[test]
fn a_fact_has_the_numbers_of_its_line() {
    let cases: [(&str, [Option<Plain>; 2]); 12] = [
        ("fact a <= 3", [Some((3, [1, 0, 0])), None]),
        ("fact a + b <= 10", [Some((10, [1, 1, 0])), None]),
        ("fact 2 b - 10 a <= 0", [Some((0, [-10, 2, 0])), None]),
        ("fact - a - 0x10 c <= -1_0", [Some((-10, [-1, 0, -16])), None]),
        ("fact c >= 1", [None, Some((-1, [0, 0, -1]))]),
        ("fact a - b >= -4", [None, Some((4, [-1, 1, 0]))]),
        ("fact a + c = 7", [Some((7, [1, 0, 1])), Some((-7, [-1, 0, -1]))]),
        ("fact a + a + 3 a - 2 a <= 9", [Some((9, [3, 0, 0])), None]),
        ("fact a + b - a <= 9", [Some((9, [0, 1, 0])), None]),
        ("fact 0 a <= 0", [Some((0, [0, 0, 0])), None]),
        ("loop b at most 10 per a", [Some((0, [-10, 1, 0])), None]),
        (
            "fact 16777216 a <= -16777216",
            [Some((-16_777_216, [16_777_216, 0, 0])), None],
        ),
    ];
    for (line, expected) in cases {
        let known = with(line);
        assert_eq!(known.facts.len(), 1, "{line}");
        assert_eq!(both(&known.facts[0]), expected, "{line}");
        let text = &known.text.as_ref().expect("it came from a text").source;
        assert_eq!(text.words(known.facts[0].span), line);
    }
}

#[test]
fn visits_are_facts_too_and_all_stand_in_the_order_of_the_text() {
    let known = with("loop b at most 2 per a\nfact c >= 1 # behind\n");
    let all = sayings(&known);
    let nodes: Vec<Option<usize>> = all.iter().map(|saying| saying.visits_of).collect();
    assert_eq!(nodes, [Some(1), Some(2), None, None]);
    assert_eq!(both(&all[0]), [Some((5, [0, 1, 0])), Some((-2, [0, -1, 0]))]);
    assert_eq!(both(&all[1]), [Some((1, [0, 0, 1])), None], "a least of 0 says nothing");
    assert_eq!(all.iter().map(|saying| saying.facts().count()).sum::<usize>(), 5);
}

#[test]
fn a_fact_may_stand_anywhere_and_nodes_be_called_as_lines_are() {
    let text = "fact fact + loop <= 2\nloop loop at most 3 per fact\ncache line 16 sets 1 ways 2 start empty\n\
                entry fact\nfact: -> loop\nloop: -> loop\n";
    let known = made(text);
    assert_eq!(known.facts.len(), 2);
    assert_eq!(known.facts[1].at_most.as_ref().map(|fact| fact.limit), Some(0));
}

#[test]
fn a_fact_rules_nodes_out_as_rule_18_7_says() {
    let rules_out = |line: &str| with(line).facts[0].facts().any(Fact::rules_out);
    for line in [
        "fact a <= 0",
        "fact a + 2 b <= 0",
        "fact c <= -1",
        "fact - c >= 0",
        "fact c = 0",
    ] {
        assert!(rules_out(line), "{line}");
    }
    for line in [
        "fact a <= 1",
        "fact a - b <= 0",
        "fact c >= 0",
        "fact a - a <= 0",
        "loop a at most 1 per b",
    ] {
        assert!(!rules_out(line), "{line}");
    }
}
