//! The desk's answers are the program's: for every chart that there is, and for very many that are drawn, whole and damaged.

use crate::charts_drawn::of_any_size;
use crate::json::{read, Json};
use charts::random::Random;
use charts::random_charts::{damaged, of_nodes, whole};
use desk::input::Input;
use desk::known::Known;
use desk::report::report;
use desk::trouble::Trouble;
use reports::each::each;
use reports::folder::{chart, names};
use reports::program::run;
use std::sync::Mutex;
use veilbuzz::Refusal;

/// What the program prints, told from the desk's answer.
fn as_the_program(known: &Known) -> String {
    let report = report(known).unwrap_or_else(|trouble| panic!("{}", trouble.words()));
    let json = read(&report.json().to_string());
    let nodes = json.at("nodes").list();
    let count = |name: &str| json.at(name).count();
    let head = format!(
        "nodes {} blocks {} passes {}\n",
        nodes.len(),
        count("blocks"),
        count("passes")
    );
    let line = |node: &Json| {
        let classes: Vec<&str> = node.at("classes").list().iter().map(Json::text).collect();
        expect_touches(node, &classes);
        format!("{} {}\n", node.at("node").count(), classes.join(" "))
    };
    head + &nodes.iter().map(line).collect::<String>()
}

/// That a node's touches have the classes that it has.
fn expect_touches(node: &Json, classes: &[&str]) {
    let touches: Vec<&str> = node
        .at("touches")
        .list()
        .iter()
        .map(|touch| touch.at("class").text())
        .collect();
    assert_eq!(touches, classes[..touches.len()]);
    let no_more = |class: &&str| matches!(*class, "none" | "unreached");
    assert!(classes[touches.len()..].iter().all(no_more), "{node:?}");
}

/// What the desk says of a chart of bytes, as the program says it.
fn said(bytes: &[u8]) -> String {
    let refused = |Refusal { number, place }| format!("refused {number} at {place}\n");
    let known = Known::of_chart("drawn", bytes.to_vec());
    let begins_as_a_chart = bytes.first() == Some(&1);
    if begins_as_a_chart {
        // by the way that a file takes
        let input = Input {
            file: "drawn".into(),
            bytes: bytes.to_vec(),
        };
        match (input.known(), &known) {
            (Ok(through), Ok(known)) => assert_eq!(through.chart, known.chart),
            (Err(Trouble::Refused { refusal, .. }), Err(known)) => assert_eq!(refusal, *known),
            _ => panic!("the two ways differ"),
        }
    }
    match known {
        Ok(known) => as_the_program(&known),
        Err(refusal) => refused(refusal),
    }
}

#[test]
fn the_desk_says_of_every_chart_of_the_folder_what_the_program_says() {
    each(&names(".chart"), |name| {
        let bytes = chart(name);
        assert_eq!(said(&bytes), run(&bytes), "{name}");
    });
}

#[test]
fn the_desk_says_of_charts_that_are_drawn_what_the_program_says() {
    let seeds: Vec<u64> = (0..1_500).collect();
    let counts = Mutex::new((0, [0; 12]));
    each(&seeds, |seed| {
        let mut random = Random::new(*seed + 19);
        let bytes = match seed % 4 {
            0 => of_any_size(&mut random).bytes(),
            1 => {
                let nodes = random.within(1, 100);
                of_nodes(&mut random, nodes).bytes()
            }
            _ => {
                let chart = whole(&mut random);
                damaged(&mut random, chart)
            }
        };
        let said = said(&bytes);
        assert_eq!(said, run(&bytes), "seed {seed}");
        let mut counts = counts.lock().expect("no other thread failed");
        match said.strip_prefix("refused ").and_then(|rest| rest.split_once(' ')) {
            Some((number, _)) => counts.1[number.parse::<usize>().expect("a number")] += 1,
            None => counts.0 += 1,
        }
    });
    let (reports, refusals) = counts.into_inner().expect("no thread failed");
    assert!(reports >= 700, "only {reports} reports");
    assert!(refusals[1..=10].iter().all(|refusals| *refusals >= 2), "{refusals:?}");
}
