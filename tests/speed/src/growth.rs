//! How long the program takes, from its start to its end, as charts grow to the most nodes.

use crate::kinds::Kind;
use charts::slowest::slowest;
use second::limits::{BLOCKS, NODES};
use std::io::Write;
use std::process::{Command, Stdio};
use std::time::Instant;

/// From where the growth is looked at.
pub const FROM: usize = 256;
const STEP: usize = 128;

/// Of so many runs the best counts.
const RUNS: usize = 15;

/// A chart's run: what it took, and what the program counted.
pub struct Run {
    pub nodes: usize,
    pub passes: usize,
    pub milliseconds: f64,
}

/// Charts of one kind, from the fewest nodes to the most.
pub struct Growth {
    pub name: &'static str,
    pub runs: Vec<Run>,
}

/// The backward line of the table of ratios, and the slowest chart.
pub fn growths(program: &str) -> [Growth; 2] {
    let backward = |nodes| Kind::Backward.charts(nodes, BLOCKS).remove(0);
    let run_all = |name, chart: &dyn Fn(usize) -> Vec<u8>| Growth {
        name,
        runs: (FROM..=NODES)
            .step_by(STEP)
            .map(|nodes| measure(program, &chart(nodes)))
            .collect(),
    };
    [
        run_all("backward", &backward),
        run_all("slowest", &|nodes| slowest(nodes).bytes()),
    ]
}

/// The smallest chart there is, one bare step: what starting and ending alone take.
pub fn start(program: &str) -> Run {
    measure(program, &charts::Chart::steps(1).bytes())
}

fn measure(program: &str, chart: &[u8]) -> Run {
    let mut best = f64::INFINITY;
    let mut report = String::new();
    for _ in 0..RUNS {
        let start = Instant::now();
        report = run(program, chart);
        best = best.min(start.elapsed().as_secs_f64() * 1e3);
    }
    let numbers: Vec<usize> = report.split_whitespace().filter_map(|word| word.parse().ok()).collect();
    let [nodes, _, passes, ..] = numbers[..] else {
        panic!("no report, but {report}");
    };
    Run {
        nodes,
        passes,
        milliseconds: best,
    }
}

/// What the program prints for a chart.
fn run(program: &str, chart: &[u8]) -> String {
    let mut child = Command::new(program)
        .stdin(Stdio::piped())
        .stdout(Stdio::piped())
        .spawn()
        .expect("the program can be started");
    let mut input = child.stdin.take().expect("standard input is a pipe");
    input.write_all(chart).expect("the program takes its chart");
    drop(input);
    let output = child.wait_with_output().expect("the program ends");
    String::from_utf8(output.stdout).expect("a report is ASCII")
}
