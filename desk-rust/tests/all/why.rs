//! `./desk why` of every node of charts that are drawn: its ages are the analysis's, and what it says of arrows and touches is so.

use crate::charts_drawn::of_any_size;
use crate::json::{read, Json};
use charts::random::Random;
use charts::random_charts::of_nodes;
use charts::sizes::touched_by;
use charts::slowest::slowest;
use charts::{Chart, Record};
use desk::known::Known;
use desk::why::why;
use reports::each::each;
use veilbuzz::{read as accepted, Analysis, Class, NODES};

/// The ages of a block on arrival at a node, must and may, as the analysis has them.
fn ages(analysis: &Analysis, node: usize, block: u32) -> [u64; 2] {
    let column = analysis
        .blocks
        .iter()
        .position(|each| *each == block)
        .expect("it is a block");
    let [must, may] = [analysis.must(node), analysis.may(node)].map(|row| row.expect("it is a node")[column]);
    [must.into(), may.into()]
}

fn both(json: &Json) -> [u64; 2] {
    ["must", "may"].map(|name| json.at(name).number())
}

/// The class that two ages make, and the number of blocks that were touched since (rule 8.1).
fn class_of([must, may]: [u64; 2], others: usize, ways: u64) -> &'static str {
    match (must < ways, may >= ways, (others as u64) < ways) {
        (true, _, _) => "hit",
        (_, true, _) => "miss",
        (_, _, true) => "kept",
        _ => "unsure",
    }
}

/// Holds what is said of each node to the analysis.
fn expect(chart: &[u8]) {
    let known = Known::of_chart("drawn", chart.to_vec()).expect("the reader accepts it");
    let analysis = Analysis::of(chart).expect("the reader accepts it");
    for node in 0..known.nodes.len() {
        expect_node(&known, &analysis, node);
    }
}

fn expect_node(known: &Known, analysis: &Analysis, node: usize) {
    let answer = why(known, node).unwrap_or_else(|trouble| panic!("{}", trouble.words()));
    let name = format!("n{node}");
    assert!(answer.words(false).contains(&name));
    let json = read(&answer.json().to_string());
    assert_eq!((json.at("node").count(), json.at("name").text()), (node, name.as_str()));
    let classes: Vec<String> = analysis.classes[node].iter().map(Class::to_string).collect();
    let said: Vec<&str> = json.at("classes").list().iter().map(Json::text).collect();
    assert_eq!(said, classes);
    let touches = json.at("touches").list();
    let blocks = match analysis.classes[node][0] {
        Class::Unreached => vec![],
        _ => touched_by(&known.chart, node),
    };
    assert_eq!(touches.len(), blocks.len());
    for (place, (touch, block)) in touches.iter().zip(blocks).enumerate() {
        assert_eq!(touch.at("block").number(), u64::from(block));
        assert_eq!(touch.at("class").text(), classes[place]);
        let arrival = both(touch.at("on_arrival"));
        assert_eq!(arrival, ages(analysis, node, block));
        expect_touch(known, touch, place, arrival);
    }
}

/// Whether a chart has room for the nodes by which what is not in its own analysis is found out.
fn has_room(known: &Known) -> bool {
    known.nodes.len() < NODES
}

fn expect_touch(known: &Known, touch: &Json, place: usize, arrival: [u64; 2]) {
    let ways = touch.at("ways").number();
    assert_eq!(ways, known.header.ways as u64);
    if place == 0 || has_room(known) {
        let before = both(touch);
        assert!(place > 0 || before == arrival, "the first touch meets what arrives");
        let others = touch.at("others").list().len();
        assert_eq!(touch.at("class").text(), class_of(before, others, ways));
    } else {
        assert_eq!((touch.at("must"), touch.at("may")), (&Json::Null, &Json::Null));
    }
    if has_room(known) {
        let arrows: Vec<[u64; 2]> = touch.at("arrows").list().iter().map(both).collect();
        let oldest = arrows.iter().map(|[must, _]| *must).max();
        let youngest = arrows.iter().map(|[_, may]| *may).min();
        assert_eq!(
            (oldest, youngest),
            (Some(arrival[0]), Some(arrival[1])),
            "the ages come by some arrow"
        );
    } else {
        assert_eq!(touch.at("arrows"), &Json::Null);
    }
    let nothing = |name: &str| touch.at(name).list().is_empty();
    let from_start = touch.at("from_start") == &Json::Bool(true);
    assert!(!nothing("last_touches") || from_start, "a walk comes from somewhere");
    assert!(
        !nothing("last_touches") || nothing("others"),
        "nothing is touched since"
    );
    assert!(
        from_start || nothing("others_from_start"),
        "no walk comes from the start"
    );
}

#[test]
fn why_says_of_every_node_what_the_analysis_has() {
    let seeds: Vec<u64> = (0..300).collect();
    each(&seeds, |seed| {
        let mut random = Random::new(*seed + 333);
        let nodes = random.within(1, 40);
        let chart = of_nodes(&mut random, nodes).bytes();
        if accepted(&chart).is_ok() {
            expect(&chart);
        }
    });
}

/// Every node of a chart near the limit would take long: some of them.
#[test]
fn why_answers_where_there_is_hardly_room_for_a_node_more_and_where_there_is_none() {
    let seeds: Vec<u64> = (0..8).collect();
    each(&seeds, |seed| {
        let mut random = Random::new(*seed + 4_444);
        let nodes = NODES as u64 - seed % 4;
        let chart = loop {
            let chart = of_nodes(&mut random, nodes).bytes();
            if accepted(&chart).is_ok() {
                break chart;
            }
        };
        let known = Known::of_chart("drawn", chart).expect("the reader accepts it");
        let analysis = Analysis::of(&known.chart).expect("the reader accepts it");
        for _ in 0..25 {
            expect_node(&known, &analysis, random.below(nodes) as usize);
        }
    });
}

/// More arrows lead to one node than there is room for steps: what comes by each is found out in several turns.
#[test]
fn why_answers_for_a_node_that_very_many_lead_to() {
    for nodes in [NODES - 3, NODES - 1, NODES] {
        let records = (0..nodes).map(|node| {
            let record = Record::read(0x0E + 16 * (node as u64 % 8)).sized(2);
            match node {
                _ if node + 1 == nodes => record,
                0 => record.to(1),
                _ => record.to(0).to(node as u64 + 1),
            }
        });
        let chart = Chart::of(records.collect()).shaped(1, 2, 0).bytes();
        let known = Known::of_chart("drawn", chart).expect("the reader accepts it");
        let analysis = Analysis::of(&known.chart).expect("the reader accepts it");
        expect_node(&known, &analysis, 0);
        let words = why(&known, 0).map(|answer| answer.words(false)).unwrap_or_default();
        let no_room =
            format!("cannot be shown: that takes a node more, and the chart has {NODES}, the most that there may be.");
        for part in ["By which arrows it comes", "Its ages after the first touch"] {
            let said = words.contains(&format!("{part} {no_room}\n"));
            assert_eq!(said, nodes == NODES, "{words}");
        }
    }
}

#[test]
fn why_answers_for_the_slowest_charts_and_for_those_of_any_size() {
    expect(&slowest(70).bytes());
    let mut random = Random::new(9);
    for _ in 0..20 {
        let chart = of_any_size(&mut random);
        let known = Known::of_chart("drawn", chart.bytes()).expect("the reader accepts it");
        let analysis = Analysis::of(&known.chart).expect("the reader accepts it");
        for _ in 0..5 {
            expect_node(&known, &analysis, random.below(known.nodes.len() as u64) as usize);
        }
    }
}
