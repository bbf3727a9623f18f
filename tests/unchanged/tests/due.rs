//! The nodes that are due, as a pass takes them.

use unchanged::due::Due;

/// Around the ends of words.
const NODES: [usize; 8] = [0, 1, 62, 63, 64, 127, 128, 199];

fn due(nodes: &[usize]) -> Due {
    let mut due = Due::none(200);
    nodes.iter().for_each(|&node| due.add(node));
    due
}

#[test]
fn each_is_taken_once_in_ascending_order() {
    let mut mixed = NODES;
    mixed.reverse();
    let mut due = due(&mixed);
    let mut from = 0;
    for node in NODES {
        assert_eq!(due.take(from), Some(node));
        from = node + 1;
    }
    assert_eq!(due.take(from), None);
    assert_eq!(due.take(0), None);
}

#[test]
fn what_lies_before_the_place_is_left() {
    for (place, node) in NODES.into_iter().enumerate() {
        let mut due = due(&NODES);
        assert_eq!(due.take(node + 1), NODES.get(place + 1).copied());
        assert_eq!(due.take(node), Some(node));
        assert_eq!(due.take(0), if place == 0 { NODES.get(2).copied() } else { Some(0) });
    }
}

#[test]
fn one_that_is_added_ahead_is_taken_in_the_same_pass_and_one_behind_in_the_next() {
    let mut due = due(&[70]);
    assert_eq!(due.take(0), Some(70));
    // itself, one ahead and one behind
    [70, 71, 5].into_iter().for_each(|node| due.add(node));
    assert_eq!(due.take(71), Some(71));
    assert_eq!(due.take(72), None);
    assert_eq!(due.take(0), Some(5));
    assert_eq!(due.take(6), Some(70));
}

#[test]
fn there_is_nothing_behind_the_last_node() {
    assert_eq!(Due::none(0).take(0), None);
    for nodes in [1, 63, 64, 65, 128] {
        let mut due = Due::none(nodes);
        due.add(nodes - 1);
        assert_eq!(due.take(nodes), None);
        assert_eq!(due.take(nodes - 1), Some(nodes - 1));
    }
}
