//! Under a picture: what its outlines, words and marks mean.

use crate::caption::{shown, PLAIN};
use crate::figure::{bordered, mark, tagged};
use crate::findings::Findings;
use crate::lettering::{text, width};
use crate::look::{look, CLASSES};
use crate::outline::Size;
use crate::plan::{Part, Plan};
use crate::spline::Point;

/// How wide and how high a line of it is, with its room.
const COLUMN: f64 = 280.0;
const LINE_HEIGHT: f64 = 27.0;

/// The sign at the left of a line.
const SIGN: Size = Size {
    width: 92.0,
    height: 20.0,
};

/// The lines of it: how a sign is drawn around a point, and what it means.
struct Meaning {
    sign: Box<dyn Fn(Point) -> String>,
    words: &'static str,
}

fn meanings(findings: &Findings, plan: &Plan) -> Vec<Meaning> {
    let has = |found: fn(&Part) -> bool| plan.items.iter().any(|item| found(&item.part));
    let nodes = 0..findings.known.nodes.len();
    let classes: Vec<_> = CLASSES
        .into_iter()
        .filter(|class| nodes.clone().any(|node| shown(findings, node).contains(class)))
        .collect();
    let mut all: Vec<Meaning> = classes
        .into_iter()
        .map(|class| Meaning {
            sign: Box::new(move |[x, y]| {
                let look = look(class);
                let word = class.to_string();
                let at = [x - width(&word, PLAIN) / 2.0, y + 4.0];
                let attributes = format!(r#" fill="{}" font-weight="bold""#, look.ink);
                bordered(&look, [x, y], SIGN, false) + &text(&word, at, PLAIN, &attributes)
            }),
            words: look(class).meaning,
        })
        .collect();
    all.push(Meaning {
        sign: Box::new(|at| mark(&Part::Start, at)),
        words: "the program begins",
    });
    if has(|part| matches!(part, Part::End(_))) {
        all.push(Meaning {
            sign: Box::new(|at| mark(&Part::End(0), at)),
            words: "the program ends",
        });
    }
    if has(|part| matches!(part, Part::Tag(..))) {
        all.push(Meaning {
            sign: Box::new(tag),
            words: "an arrow to NAME, far off",
        });
    }
    all
}

/// The border of a tag, with a word in it.
fn tag([x, y]: Point) -> String {
    let word = "to NAME";
    tagged([x, y], SIGN) + &text(word, [x - width(word, PLAIN) / 2.0, y + 4.0], PLAIN, "")
}

/// The legend from a point on, of a width, and how high it is.
pub fn legend(findings: &Findings, plan: &Plan, [left, top]: Point, room: f64) -> (String, f64) {
    let all = meanings(findings, plan);
    let columns = ((room / COLUMN) as usize).clamp(1, all.len());
    let lines = all.len().div_ceil(columns);
    let mut out = String::new();
    for (number, Meaning { sign, words }) in all.iter().enumerate() {
        let x = left + COLUMN * (number / lines) as f64;
        let y = top + LINE_HEIGHT * ((number % lines) as f64 + 0.5);
        out += &sign([x + SIGN.width / 2.0, y]);
        out += &text(words, [x + SIGN.width + 10.0, y + 4.0], PLAIN, "");
        out.push('\n');
    }
    (out, LINE_HEIGHT * lines as f64)
}
