//! How long the program takes as charts grow, as a picture: a curve for each kind.

use crate::draw::{curve, line, mark, sheet, text, Mark, Stroke, INK};
use crate::growth::{Growth, FROM};
use second::limits::NODES;
use std::env::consts::ARCH;

const COLOURS: [&str; 2] = ["#3d86c6", "#c97b2d"];
const SIZE: [f64; 2] = [760.0, 420.0];
/// The corners of what is drawn on: nodes go to the right, time goes up.
const LEFT: f64 = 70.0;
const RIGHT: f64 = 730.0;
/// How far the first and the last point stand from the corners.
const INSET: f64 = 24.0;
const TOP: f64 = 56.0;
const BOTTOM: f64 = 370.0;

/// A picture of growths that begin at the same number of nodes.
pub fn svg(growths: &[Growth; 2]) -> String {
    let longest = growths
        .iter()
        .flat_map(|growth| &growth.runs)
        .map(|run| run.milliseconds);
    let scale = Scale::up_to(longest.fold(0.0, f64::max));
    let mut all = String::new();
    let title = format!("Time of the program, from start to end, in milliseconds ({ARCH} code)");
    text(&mut all, [LEFT - 50.0, 24.0], "start", INK, &title);
    axes(&mut all, &scale);
    let points = growths.each_ref().map(|growth| {
        growth
            .runs
            .iter()
            .map(|run| scale.point(run.nodes, run.milliseconds))
            .collect::<Vec<_>>()
    });
    for which in [0, 1] {
        let (colour, other) = (COLOURS[which], &points[1 - which]);
        curve(&mut all, &points[which], colour, Stroke::Whole);
        for (place, &[x, y]) in points[which].iter().enumerate() {
            mark(&mut all, Mark::Circle, [x, y], 3.5, colour);
            // not where it would run into the curve above
            if !(y - 30.0..y).contains(&other[place][1]) {
                let words = format!("{:.1}", growths[which].runs[place].milliseconds);
                text(&mut all, [x, y - 11.0], "middle", colour, &words);
            }
        }
    }
    legend(&mut all, growths);
    sheet(SIZE, &all)
}

/// From nodes and milliseconds to places.
struct Scale {
    step: f64,
    steps: usize,
}

impl Scale {
    /// Four to ten steps of 1, 2 or 5 times a power of ten.
    fn up_to(longest: f64) -> Scale {
        let power = 10_f64.powf(longest.log10().floor() - 1.0);
        let steps = |step: f64| (longest * 1.05 / step).ceil() as usize;
        let found = [1.0, 2.0, 5.0, 10.0]
            .map(|times| times * power)
            .into_iter()
            .find(|&step| steps(step) <= 10);
        let step = found.expect("ten steps of a power of ten are enough");
        Scale {
            step,
            steps: steps(step),
        }
    }

    fn point(&self, nodes: usize, milliseconds: f64) -> [f64; 2] {
        let across = (nodes - FROM) as f64 / (NODES - FROM) as f64;
        let up = milliseconds / (self.step * self.steps as f64);
        [
            LEFT + INSET + across * (RIGHT - LEFT - 2.0 * INSET),
            BOTTOM - up * (BOTTOM - TOP),
        ]
    }
}

fn axes(out: &mut String, scale: &Scale) {
    line(out, [LEFT, BOTTOM], [RIGHT, BOTTOM], INK);
    line(out, [LEFT, TOP], [LEFT, BOTTOM], INK);
    for step in 0..=scale.steps {
        let milliseconds = scale.step * step as f64;
        let [_, y] = scale.point(FROM, milliseconds);
        line(out, [LEFT - 4.0, y], [LEFT, y], INK);
        text(out, [LEFT - 8.0, y + 4.0], "end", INK, &format!("{milliseconds}"));
    }
    for nodes in (FROM..=NODES).step_by(FROM) {
        let [x, y] = scale.point(nodes, 0.0);
        line(out, [x, y], [x, y + 4.0], INK);
        text(out, [x, y + 20.0], "middle", INK, &format!("{nodes}"));
    }
    text(out, [(LEFT + RIGHT) / 2.0, BOTTOM + 40.0], "middle", INK, "nodes");
}

/// What each curve is, in the corner where none of them goes.
fn legend(out: &mut String, growths: &[Growth; 2]) {
    let [x, mut y] = [LEFT + INSET, TOP + 12.0];
    for (growth, colour) in growths.iter().zip(COLOURS).rev() {
        curve(out, &[[x, y], [x + 26.0, y]], colour, Stroke::Whole);
        mark(out, Mark::Circle, [x + 13.0, y], 3.5, colour);
        text(out, [x + 36.0, y + 4.0], "start", colour, growth.name);
        y += 20.0;
    }
}
