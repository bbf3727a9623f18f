//! The chart of reads over the end of a line: what charts/README.md says of it, touch by touch and in cost.

use charts::{Chart, Record};
use reports::folder::{chart, report, rows, text};
use second::cache::{cost, Cache, Costs};
use second::chart;
use second::lending::Lending;
use second::limits::PASSES;
use second::totals::{Bounds, Totals};

const COSTS: Costs = Costs { hit: 1, miss: 10 };

/// Its reads, of four bytes each or of one.
fn reads(size: u64) -> Chart {
    let over_the_end = |address| Record::read(address).sized(size);
    let records = vec![
        over_the_end(0x0E),
        Record::read(0x00),
        Record::read(0x10),
        over_the_end(0x1E),
        Record::read(0x00),
    ];
    Chart::of(records).in_a_row().shaped(1, 1, 1)
}

fn read(bytes: &[u8]) -> chart::Chart {
    chart::Chart::read(bytes).expect("the chart is accepted")
}

/// What the plain machine pays for the whole walk.
fn paid(bytes: &[u8]) -> u64 {
    let chart = read(bytes);
    cost(&chart, Cache::empty(chart.header.geometry), COSTS, &[0, 1, 2, 3, 4]).expect("the nodes are a walk")
}

/// A column of the page's table.
fn column(place: usize) -> Vec<String> {
    let rows = rows(|first| first.starts_with("node "));
    rows.into_iter().map(|row| row[place].clone()).collect()
}

#[test]
fn the_chart_has_its_bytes_and_its_report() {
    assert_eq!(chart("straddle"), reads(2).bytes());
    assert_eq!(
        report("straddle"),
        "nodes 5 blocks 3 passes 2\n0 miss miss\n1 hit none\n2 hit none\n3 hit miss\n4 miss none\n"
    );
}

#[test]
fn the_page_has_both_words_of_each_node() {
    let report = report("straddle");
    let words: Vec<&str> = report
        .lines()
        .skip(1)
        .map(|line| line.split_once(' ').expect("a node has words").1)
        .collect();
    assert_eq!(column(4), words);
}

#[test]
fn the_page_tells_touches_contents_and_costs_node_by_node() {
    let chart = read(&chart("straddle"));
    let mut cache = Cache::empty(chart.header.geometry);
    let (mut touches, mut contents, mut costs) = (vec![], vec![], vec![]);
    let told = |list: &[u32]| list.first().map_or("nothing".to_string(), u32::to_string);
    for (number, node) in chart.nodes.iter().enumerate() {
        let blocks: Vec<String> = node.touched().map(|column| chart.blocks[column].to_string()).collect();
        touches.push(format!("block {}", blocks.join(", then ")));
        contents.push([0, 1].map(|set| told(cache.list(set))).join(", "));
        let hits = cache.visit(&chart, number).into_iter().flatten();
        let pays: Vec<String> = hits
            .map(|hit| if hit { COSTS.hit } else { COSTS.miss }.to_string())
            .collect();
        costs.push(pays.join(" + "));
    }
    assert_eq!((column(2), column(3), column(5)), (touches, contents, costs));
}

#[test]
fn the_page_tells_what_the_walk_costs_and_what_it_would_by_first_bytes_alone() {
    let bytes = chart("straddle");
    let mut lending = Lending::largest();
    lending.analyse(&bytes, PASSES);
    let once = Bounds {
        floors: &[1; 5],
        ceilings: &[1; 5],
    };
    let (both, one) = (paid(&bytes), paid(&reads(0).bytes()));
    let totals = lending.totals(&bytes, COSTS, once);
    assert_eq!(totals, Ok(Totals { low: both, high: both }));
    let page = text("README.md");
    assert!(page.contains(&format!("the walk pays {both}, and both totals are {both} too")));
    assert!(page.contains(&format!("first byte alone comes to {one},")));
}
