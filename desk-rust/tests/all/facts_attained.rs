//! The charts with facts of the folder charts/: what their pages say of the dearest walk, and of the cheapest, is what it costs.

use crate::facts_drawn::cost;
use crate::json::read;
use crate::trying::known;
use desk::totals::totals;
use reports::folder::{chart, text};
use std::iter::repeat_n;

/// The low and the high bound that the desk tells, for the costs of the text.
fn bounds(name: &str) -> [u64; 2] {
    let answer = totals(&known(text(&format!("{name}.txt")).as_bytes()), None, None);
    let json = read(
        &answer
            .unwrap_or_else(|trouble| panic!("{}", trouble.words()))
            .json()
            .to_string(),
    );
    ["low", "high"].map(|side| json.at("facts").at(side).at("bound").number())
}

/// What a walk costs that is made of such pieces, each so many times.
fn paid(name: &str, pieces: &[(&[usize], usize)]) -> u64 {
    let walk = pieces
        .iter()
        .flat_map(|(piece, times)| repeat_n(*piece, *times).flatten());
    let costs = known(text(&format!("{name}.txt")).as_bytes())
        .costs
        .expect("there are costs");
    cost(&chart(name), &walk.copied().collect::<Vec<usize>>(), costs)
}

#[test]
fn both_sides_of_the_branch_in_turn_cost_what_the_high_bound_says() {
    let turns = [0, 1, 2, 4, 0, 1, 3, 4];
    let [low, high] = bounds("branch");
    assert_eq!((low, high), (32, 68));
    assert_eq!(paid("branch", &[(&turns, 5), (&[0, 5], 1)]), high);
}

#[test]
fn the_longest_and_the_shortest_walk_of_the_nested_loop_cost_what_the_bounds_say() {
    let [low, high] = bounds("nested");
    assert_eq!((low, high), (31, 133));
    assert_eq!(paid("nested", &[(&[0], 1), (&[1, 2, 3, 3, 3, 4], 4), (&[5], 1)]), high);
    assert_eq!(paid("nested", &[(&[0, 1, 2, 4, 5], 1)]), low);
}

#[test]
fn six_turns_over_clear_ground_and_four_over_rock_cost_what_the_high_bound_says() {
    let power_on = [0, 1, 2, 3, 4, 5, 6, 7];
    let clear = [8, 9, 10, 11, 12, 13, 17, 18];
    let rock = [8, 9, 10, 14, 15, 16, 17, 18];
    let [low, high] = bounds("winch-facts");
    assert_eq!((low, high), (1093, 1264));
    assert_eq!(paid("winch-facts", &[(&power_on, 1), (&clear, 6), (&rock, 4)]), high);
}
