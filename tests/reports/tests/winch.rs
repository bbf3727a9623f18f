//! The winch's loop in two shapes: what charts/README.md says of it, node by node and in cost.

use reports::folder::{chart, report, rows, text, words};
use second::cache::{cost, Cache, Costs};
use second::chart::Chart;
use second::lending::Lending;
use second::limits::PASSES;
use second::totals::{Bounds, Totals};
use std::iter::repeat;

const COSTS: Costs = Costs { hit: 1, miss: 20 };

/// From power on to the loop, then ten turns that see rock.
fn ten_hauls() -> Vec<usize> {
    let turns = repeat([8, 9, 10, 14, 15, 16, 17, 18]).take(10).flatten();
    (0..8).chain(turns).collect()
}

/// The totals of a chart where each node's floor and ceiling is how often that walk comes to it.
fn totals(name: &str) -> Totals {
    let bytes = chart(name);
    let mut visits = [0; 20];
    for node in ten_hauls() {
        visits[node] += 1;
    }
    let mut lending = Lending::largest();
    lending.analyse(&bytes, PASSES);
    let bounds = Bounds {
        floors: &visits,
        ceilings: &visits,
    };
    lending.totals(&bytes, COSTS, bounds).expect("the table passes")
}

/// What the plain machine pays for that walk from an empty cache.
fn paid(name: &str) -> u64 {
    let chart = Chart::read(&chart(name)).expect("the chart is accepted");
    let cache = Cache::empty(chart.header.geometry);
    cost(&chart, cache, COSTS, &ten_hauls()).expect("these nodes are a walk")
}

#[test]
fn the_two_charts_differ_in_sets_and_ways_alone() {
    let (mut built, swapped) = (chart("winch-as-built"), chart("winch-swapped"));
    assert_eq!((built[1], built[2]), (0x43, 0x20));
    assert_eq!((swapped[1], swapped[2]), (0x41, 0x80));
    // facts are no part of a chart of bytes
    assert_eq!(
        (chart("winch-facts"), report("winch-facts")),
        (built.clone(), report("winch-as-built"))
    );
    built[1..3].copy_from_slice(&swapped[1..3]);
    assert_eq!(built, swapped);
}

#[test]
fn the_readme_shows_both_reports_side_by_side() {
    let rows = rows(|first| first.parse::<usize>().is_ok());
    let column = |place: usize| -> Vec<String> { rows.iter().map(|row| row[place].clone()).collect() };
    assert_eq!(column(2), words(&report("winch-as-built")));
    assert_eq!(column(3), words(&report("winch-swapped")));
}

#[test]
fn the_pages_tell_what_ten_hauls_cost() {
    let [built, swapped] = ["winch-as-built", "winch-swapped"].map(totals);
    for Totals { low, high } in [built, swapped] {
        assert!(
            text("README.md").contains(&format!("{low} and {high}")),
            "{low} and {high}"
        );
    }
    let caused = format!(
        "low total {} -> {}, high total {} -> {}",
        built.low, swapped.low, built.high, swapped.high
    );
    assert!(text("../README.md").contains(&caused), "{caused}");
}

#[test]
fn from_an_empty_cache_ten_hauls_cost_the_high_total() {
    for name in ["winch-as-built", "winch-swapped"] {
        assert_eq!(paid(name), totals(name).high, "{name}");
    }
}
