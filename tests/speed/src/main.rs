//! A table of ratios and its picture, or one job alone for a counter of instructions:
//!
//!     speed table docs/speed.svg               the table, and the picture into that file
//!     speed chains docs/chains.svg             how long an analysis takes as chains grow, and the picture into that file
//!     speed before                             the table of the analysis before a change and now
//!     speed written                            the table of the writer beside the reader
//!     speed growth PROGRAM docs/growth.svg     how long the program takes as charts grow, and the picture into that file
//!     speed slowest 900                        the slowest chart of so many nodes, to standard output
//!     speed ours backward 256 64 3             the proved analysis of that chart, three times
//!     speed second backward 256 64 3           the second program's
//!     speed unchanged backward 256 64 3        the one that passes over unchanged nodes

use charts::slowest::slowest;
use second::lending::Lending;
use second::limits::{BLOCKS, NODES, PASSES};
use speed::before::{agree, BEFORE};
use speed::chains;
use speed::growth::{growths, start, Growth};
use speed::kinds::Kind;
use speed::measures::Case;
use speed::plot_growth;
use speed::runs::{Run, OURS, SECOND, UNCHANGED};
use speed::table;
use speed::written::{written, Written};
use std::env;
use std::fs;
use std::io::{stdout, Write};

fn main() {
    let words: Vec<String> = env::args().skip(1).collect();
    let words: Vec<&str> = words.iter().map(String::as_str).collect();
    match words[..] {
        ["table", picture] => table::print(picture),
        ["chains", picture] => chains::print(picture),
        ["before"] => changed(),
        ["written"] => beside_reader(),
        ["growth", program, picture] => growth(program, picture),
        ["slowest", nodes] => stdout()
            .write_all(&slowest(number(nodes)).bytes())
            .expect("standard output takes the chart"),
        [whose, kind, nodes, blocks, times] => alone(whose, kind, number(nodes), number(blocks), number(times)),
        _ => panic!("'table PICTURE', 'chains PICTURE', 'before', 'written', 'growth PROGRAM PICTURE', 'slowest NODES', or: ours|second|unchanged short|looping|backward|straddling NODES BLOCKS TIMES"),
    }
}

fn changed() {
    let before = BEFORE.expect("tests/speed/before FOLDER, with the folder of the archive before the change");
    println!(
        "| chart | nodes | blocks | before, µs | now, µs | more, µs | now / before | beside the passes: now / before |"
    );
    println!("|---|---|---|---|---|---|---|---|");
    for case in Case::changed().filter(|case| case.taken_by(before)) {
        let [whole, rest] = [PASSES, 0].map(|allowance| case.compare([OURS, before], allowance, agree));
        let Case { nodes, blocks, .. } = case;
        let name = case.kind.name();
        let [now, then] = whole.best();
        println!(
            "| {name} | {nodes} | {blocks} | {then:.2} | {now:.2} | {:.2} | {:.3} | {:.3} |",
            now - then,
            whole.middle(1),
            rest.middle(1)
        );
    }
}

fn beside_reader() {
    println!("| chart | nodes | blocks | writer, µs | reader, µs | writer / reader |");
    println!("|---|---|---|---|---|---|");
    for nodes in [NODES, NODES / 4, 16] {
        for blocks in [BLOCKS, 8] {
            for kind in [Kind::Short, Kind::Mixed, Kind::Straddling] {
                let Written { best, ratio } = written(kind, nodes, blocks);
                let [writer, reader] = best;
                println!(
                    "| {} | {nodes} | {blocks} | {writer:.2} | {reader:.2} | {ratio:.3} |",
                    kind.name()
                );
            }
        }
    }
}

fn growth(program: &str, picture: &str) {
    println!("one bare step: {:.1} ms", start(program).milliseconds);
    let growths = growths(program);
    for Growth { name, runs } in &growths {
        println!("\n| {name}: nodes | passes | ms | ns for a node in a pass |\n|---|---|---|---|");
        for run in runs {
            let visit = run.milliseconds / run.passes as f64 / run.nodes as f64 * 1e6;
            println!(
                "| {} | {} | {:.1} | {visit:.1} |",
                run.nodes, run.passes, run.milliseconds
            );
        }
    }
    fs::write(picture, plot_growth::svg(&growths)).expect("the picture can be written");
}

fn alone(whose: &str, kind: &str, nodes: usize, blocks: usize, times: usize) {
    let analysis = match whose {
        "ours" => OURS,
        "second" => SECOND,
        "unchanged" => UNCHANGED,
        _ => panic!("{whose} is not one of ours, second and unchanged"),
    };
    let kind = Kind::IN_TURN
        .into_iter()
        .chain([Kind::Straddling])
        .find(|known| known.name() == kind)
        .expect("the kind is short, looping, backward or straddling");
    let charts = kind.charts(nodes, blocks);
    let mut run = Run {
        analysis,
        charts: &charts,
        lent: Lending::of(blocks, nodes, 0),
        cleared: false,
    };
    for _ in 0..times {
        run.once(&charts[0], PASSES);
    }
}

fn number(word: &str) -> usize {
    word.parse().expect("a number")
}
