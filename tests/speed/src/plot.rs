//! The ratios as a picture: for each chart a mark against each of the two, and a stroke at its target.

use crate::draw::{curve, mark, rectangle, sheet, text, thin, Mark, Stroke, INK};
use crate::measures::{shown, Case};
use crate::targets::{Against, Ratios, Target};
use std::env::consts::ARCH;

const COLOURS: [&str; 2] = ["#3d86c6", "#c97b2d"];
const MARKS: [Mark; 2] = [Mark::Circle, Mark::Square];
const TARGET: &str = "#c9454f";

const WIDTH: f64 = 860.0;
/// Where titles begin, where the names of charts end, and where the smallest ratio and the largest stand.
const MARGIN: f64 = 16.0;
const NAMES: f64 = 90.0;
const LEFT: f64 = 124.0;
const RIGHT: f64 = 836.0;
/// From the one ratio of a chart to the other.
const ROW: f64 = 18.0;
/// From one chart's two to the next chart's.
const STEP: f64 = 2.0 * ROW + 8.0;
const TOP: f64 = 146.0;

/// A picture of ratios, in the order of `Case::all`: two cases for each chart, as left and cleared, of which the larger ratio is drawn.
pub fn svg(measured: &[(Case, Ratios)]) -> String {
    let scale = Scale::of(measured);
    let mut marks = String::new();
    let mut y = TOP;
    let mut size = None;
    for both in measured.chunks_exact(2) {
        let [(case, left), (_, cleared)] = both else {
            unreachable!("chunks of two are pairs")
        };
        if size != Some((case.nodes, case.blocks)) {
            size = Some((case.nodes, case.blocks));
            let title = format!("{} nodes, {} blocks", case.nodes, case.blocks);
            text(&mut marks, [MARGIN, y + 24.0], "start", INK, &title);
            y += 44.0;
        }
        text(&mut marks, [NAMES, y + ROW / 2.0 + 4.0], "end", INK, case.kind.name());
        for against in Against::BOTH {
            let ratio = left[against as usize].max(cleared[against as usize]);
            row(
                &mut marks,
                &scale,
                y + ROW * against as usize as f64,
                *case,
                against,
                ratio,
            );
        }
        y += STEP;
    }
    let mut all = String::new();
    legend(&mut all);
    axis(&mut all, &scale, y);
    sheet([WIDTH, y + 12.0], &(all + &marks))
}

/// From ratios to places: each decade is as wide as any other.
struct Scale {
    least: f64,
    most: f64,
}

impl Scale {
    /// Room for all ratios and targets, and for a number beside the outermost.
    fn of(measured: &[(Case, Ratios)]) -> Scale {
        let ratios = measured.iter().flat_map(|(_, ratios)| ratios);
        let (least, most) = ratios.fold((0.03_f64, 1.2_f64), |(least, most), &ratio| {
            (least.min(ratio), most.max(ratio))
        });
        Scale {
            least: least / 1.5,
            most: most * 1.6,
        }
    }

    fn x(&self, ratio: f64) -> f64 {
        LEFT + (ratio / self.least).ln() / (self.most / self.least).ln() * (RIGHT - LEFT)
    }

    /// 1, 2 and 5 times powers of ten, as far as there is room.
    fn steps(&self) -> Vec<f64> {
        let powers = (-4..3).map(|power| 10_f64.powi(power));
        let steps = powers.flat_map(|power| [1.0, 2.0, 5.0].map(|times| times * power));
        steps.filter(|step| (self.least..=self.most).contains(step)).collect()
    }
}

/// The mark of a ratio, the stroke of its target, each with its number on the far side of the other, and a line between them.
fn row(out: &mut String, scale: &Scale, y: f64, case: Case, against: Against, ratio: f64) {
    let which = against as usize;
    let target = Target::of(case, against).most;
    let [at, wanted] = [ratio, target].map(|ratio| scale.x(ratio));
    curve(out, &[[at, y], [wanted, y]], COLOURS[which], Stroke::Dotted);
    rectangle(out, [wanted - 1.5, y - 7.0], [3.0, 14.0], TARGET);
    mark(out, MARKS[which], [at, y], 5.0, COLOURS[which]);
    let [before, behind] = [("end", -9.0), ("start", 9.0)];
    let (its, other) = if ratio <= target {
        (before, behind)
    } else {
        (behind, before)
    };
    text(out, [at + its.1, y + 4.5], its.0, COLOURS[which], &shown(ratio));
    text(out, [wanted + other.1, y + 4.5], other.0, TARGET, &format!("{target}"));
}

fn legend(out: &mut String) {
    let title = format!("Time of a whole analysis, proved / ordinary Rust ({ARCH} code; further left is faster)");
    text(out, [MARGIN, 24.0], "start", INK, &title);
    for (which, words) in [
        "against the second program: plain passes",
        "against the one that passes over unchanged nodes",
    ]
    .into_iter()
    .enumerate()
    {
        let y = 48.0 + 20.0 * which as f64;
        mark(out, MARKS[which], [MARGIN + 8.0, y], 5.0, COLOURS[which]);
        text(out, [MARGIN + 24.0, y + 4.5], "start", COLOURS[which], words);
    }
    rectangle(out, [MARGIN + 6.5, 81.0], [3.0, 14.0], TARGET);
    text(
        out,
        [MARGIN + 24.0, 92.5],
        "start",
        TARGET,
        "target: the mark is to stand on the stroke or left of it",
    );
    let words = "buffers as the run before left them, or cleared by the caller: the larger ratio of the two";
    text(out, [MARGIN, 114.0], "start", INK, words);
}

fn axis(out: &mut String, scale: &Scale, bottom: f64) {
    for step in scale.steps() {
        let x = scale.x(step);
        text(out, [x, TOP - 6.0], "middle", INK, &format!("{step}"));
        thin(out, [x, TOP], [x, bottom]);
    }
}
