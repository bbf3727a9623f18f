//! How the time of an analysis grows with a chain, as a picture: both ways by powers, so that what grows as the nodes and what grows as their square
//! are straight lines of different steepness.

use crate::chains::{Chain, Chains, NAMES};
use crate::draw::{curve, line, mark, sheet, text, thin, Mark, Stroke, INK};
use crate::measures::FEWEST;
use second::limits::NODES;
use std::env::consts::ARCH;

const COLOURS: [&str; 3] = ["#3d86c6", "#c9454f", "#c97b2d"];
const MARKS: [Mark; 3] = [Mark::Circle, Mark::Square, Mark::Triangle];
const SIZE: [f64; 2] = [1050.0, 530.0];
const TOP: f64 = 124.0;
const BOTTOM: f64 = 474.0;
/// Where what is drawn on begins, for each number of blocks, and how wide it is.
const LEFTS: [f64; 2] = [70.0, 590.0];
const WIDTH: f64 = 320.0;
/// From one line of words to the next, at least.
const LINE: f64 = 16.0;

pub fn svg(both: &[Chains; 2]) -> String {
    let scale = Scale::of(both);
    let mut all = String::new();
    let title = format!("Time of a whole analysis of a chain that runs against the numbers ({ARCH} code)");
    text(&mut all, [LEFTS[0] - 54.0, 24.0], "start", INK, &title);
    legend(&mut all);
    for (chains, left) in both.iter().zip(LEFTS) {
        axes(&mut all, &scale, left);
        let title = match chains.blocks {
            8 => "8 blocks".to_string(),
            most => format!("{most} blocks, or as many as nodes"),
        };
        text(&mut all, [left, TOP - 14.0], "start", INK, &title);
        steepness(&mut all, &scale, left, chains);
        // ours over the others
        for which in (0..NAMES.len()).rev() {
            let points: Vec<[f64; 2]> = chains
                .all
                .iter()
                .map(|chain| scale.point(left, chain.nodes as f64, chain.times[which]))
                .collect();
            curve(&mut all, &points, COLOURS[which], Stroke::Whole);
            for point in points {
                mark(&mut all, MARKS[which], point, 4.0, COLOURS[which]);
            }
        }
        ends(&mut all, &scale, left, chains.all.last().expect("there are chains"));
    }
    sheet(SIZE, &all)
}

/// From nodes and microseconds to places.
struct Scale {
    least: f64,
    most: f64,
}

impl Scale {
    /// Whole decades, with room for all.
    fn of(both: &[Chains; 2]) -> Scale {
        let times = || both.iter().flat_map(|chains| &chains.all).flat_map(|chain| chain.times);
        Scale {
            least: 10_f64.powf(times().fold(f64::INFINITY, f64::min).log10().floor()),
            most: 10_f64.powf(times().fold(0.0, f64::max).log10().ceil()),
        }
    }

    fn point(&self, left: f64, nodes: f64, time: f64) -> [f64; 2] {
        let across = (nodes / FEWEST as f64).ln() / (NODES as f64 / FEWEST as f64).ln();
        let up = (time / self.least).ln() / (self.most / self.least).ln();
        [left + 12.0 + across * (WIDTH - 24.0), BOTTOM - up * (BOTTOM - TOP)]
    }
}

fn axes(out: &mut String, scale: &Scale, left: f64) {
    line(out, [left, BOTTOM], [left + WIDTH, BOTTOM], INK);
    line(out, [left, TOP], [left, BOTTOM], INK);
    let mut time = scale.least;
    while time <= scale.most * 1.01 {
        let [_, y] = scale.point(left, FEWEST as f64, time);
        thin(out, [left, y], [left + WIDTH, y]);
        text(out, [left - 6.0, y + 4.5], "end", INK, &shown(time));
        time *= 10.0;
    }
    let mut nodes = FEWEST;
    while nodes <= NODES {
        let [x, _] = scale.point(left, nodes as f64, scale.least);
        line(out, [x, BOTTOM], [x, BOTTOM + 4.0], INK);
        text(out, [x, BOTTOM + 20.0], "middle", INK, &format!("{nodes}"));
        nodes *= 2;
    }
    text(out, [left + WIDTH / 2.0, BOTTOM + 42.0], "middle", INK, "nodes");
}

/// As the nodes, below the lower curves, and as their square, above the second program's: by the longest chain.
fn steepness(out: &mut String, scale: &Scale, left: f64, chains: &Chains) {
    let [ours, second, unchanged] = chains.all.last().expect("there are chains").times;
    for (power, longest, stroke) in [
        (1, ours.min(unchanged) / 2.0, Stroke::Dotted),
        (2, second * 2.0, Stroke::Dashed),
    ] {
        let time = |nodes: f64| longest * (nodes / NODES as f64).powi(power);
        // no further than what is drawn on
        let within = |nodes: &f64| (scale.least..=scale.most).contains(&time(*nodes));
        let lengths =
            (0..=600).map(|step| FEWEST as f64 * (NODES as f64 / FEWEST as f64).powf(f64::from(step) / 600.0));
        let points: Vec<[f64; 2]> = lengths
            .filter(within)
            .map(|nodes| scale.point(left, nodes, time(nodes)))
            .collect();
        if let [first, .., last] = points[..] {
            curve(out, &[first, last], INK, stroke);
        }
    }
}

/// The times of the longest chain, beside its marks and apart from one another.
fn ends(out: &mut String, scale: &Scale, left: f64, chain: &Chain) {
    let mut places: Vec<(usize, [f64; 2])> = (0..NAMES.len())
        .map(|which| (which, scale.point(left, chain.nodes as f64, chain.times[which])))
        .collect();
    places.sort_by(|(_, [_, one]), (_, [_, other])| one.total_cmp(other));
    let mut free = 0.0;
    for (which, [x, y]) in places {
        let y = y.max(free);
        free = y + LINE;
        let words = format!("{} {}", NAMES[which], shown(chain.times[which]));
        text(out, [x + 9.0, y + 4.5], "start", COLOURS[which], &words);
    }
}

/// So many microseconds, in the unit that suits them.
fn shown(time: f64) -> String {
    let (number, unit) = match time {
        ..1e3 => (time, "µs"),
        ..1e6 => (time / 1e3, "ms"),
        _ => (time / 1e6, "s"),
    };
    if number < 9.95 && number.fract() != 0.0 {
        format!("{number:.1} {unit}")
    } else {
        format!("{number:.0} {unit}")
    }
}

fn legend(out: &mut String) {
    let mut x = LEFTS[0] - 54.0;
    for (which, words) in [
        "ours: proved",
        "second: plain passes over all nodes",
        "unchanged: ordinary Rust that passes over unchanged nodes",
    ]
    .into_iter()
    .enumerate()
    {
        curve(out, &[[x, 50.0], [x + 28.0, 50.0]], COLOURS[which], Stroke::Whole);
        mark(out, MARKS[which], [x + 14.0, 50.0], 4.0, COLOURS[which]);
        text(out, [x + 36.0, 54.5], "start", COLOURS[which], words);
        x += 36.0 + 8.0 * words.len() as f64 + 16.0;
    }
    let mut x = LEFTS[0] - 54.0;
    for (stroke, words) in [
        (Stroke::Dotted, "as the nodes"),
        (Stroke::Dashed, "as the square of the nodes"),
    ] {
        curve(out, &[[x, 72.0], [x + 28.0, 72.0]], INK, stroke);
        text(out, [x + 36.0, 76.5], "start", INK, words);
        x += 36.0 + 8.0 * words.len() as f64 + 16.0;
    }
}
