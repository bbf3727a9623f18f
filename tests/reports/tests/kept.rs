//! The loop before and after blocks that stay: what README.md says of it, and what it says of the controller of docs/FROM-C.md.

use reports::folder::chart;
use reports::tree::text;
use second::cache::{cost, Cache, Costs};
use second::chart::Chart;
use second::lending::Lending;
use second::limits::PASSES;
use second::totals::{Bounds, Totals};
use std::iter::{once, repeat_n};

const COSTS: Costs = Costs { hit: 1, miss: 10 };

/// How often a walk comes to each node: once, one to ten times, once.
const BOUNDS: Bounds = Bounds {
    floors: &[1, 1, 1],
    ceilings: &[1, 10, 1],
};

/// The loop's totals now.
fn now() -> Totals {
    let bytes = chart("loop");
    let mut lending = Lending::largest();
    lending.analyse(&bytes, PASSES);
    lending.totals(&bytes, COSTS, BOUNDS).expect("the table passes")
}

/// What the plain machine pays for ten turns from an empty cache.
fn ten_turns() -> u64 {
    let chart = Chart::read(&chart("loop")).expect("the chart is accepted");
    let walk: Vec<usize> = once(0).chain(repeat_n(1, 10)).chain(once(2)).collect();
    cost(&chart, Cache::empty(chart.header.geometry), COSTS, &walk).expect("these nodes are a walk")
}

/// A row of the table of before and now, by the words that it begins with.
fn row(begins: &str) -> Vec<String> {
    let page = text("README.md");
    let after = page.split("\n## The loop before and after\n").nth(1);
    let section = after.and_then(|after| after.split("\n## ").next());
    let section = section.expect("README.md has the section");
    let line = section.lines().find(|line| line.starts_with(&format!("| {begins}")));
    let cells = line.and_then(reports::pages::cells);
    cells.unwrap_or_else(|| panic!("there is no row '{begins}'"))
}

/// Whether a cell begins with a number.
fn begins_with(cell: &str, number: u64) -> bool {
    cell.split(':').next() == Some(number.to_string().as_str())
}

#[test]
fn ten_turns_cost_the_high_total_of_now() {
    assert_eq!(now().high, ten_turns());
}

#[test]
fn the_front_page_tells_the_loops_totals_before_and_now() {
    let Totals { low, high } = now();
    // before, what is neither a hit nor a miss was paid a miss for each visit, so each turn of the ten
    let before = 10 * u64::from(COSTS.miss) + u64::from(COSTS.hit);
    let highs = row("high total");
    assert!(
        begins_with(&highs[1], before) && begins_with(&highs[2], high),
        "{highs:?}"
    );
    let lows = row("low total");
    assert!(begins_with(&lows[1], low) && begins_with(&lows[2], low), "{lows:?}");
    let paid = row("the walk of ten turns truly costs");
    assert!(
        begins_with(&paid[1], ten_turns()) && begins_with(&paid[2], ten_turns()),
        "{paid:?}"
    );
}

/// That page shows the controller's totals as the desk writes them, which the desk's tests hold it to.
#[test]
fn the_front_page_tells_the_controllers_high_total() {
    let (front, page) = (text("README.md"), text("docs/FROM-C.md"));
    let shown = page.split("    $ ./desk totals docs/from-c/haul.txt\n").nth(1);
    let line = shown.and_then(|shown| shown.lines().find_map(|line| line.strip_prefix("    high total  ")));
    let high = line.expect("the page shows the totals");
    assert!(front.contains(&format!("its high total is {high},")), "{high}");
}
