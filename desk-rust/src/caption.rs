//! What stands in a node of a picture: rows of words, some of them on the colour of a class.

use crate::findings::Findings;
use crate::lettering::{shortened, text, width, LONGEST};
use crate::look::look;
use crate::markup::escaped;
use crate::outline::{Outline, Size};
use crate::reference::{reference, Reference};
use crate::spline::Point;
use crate::words::{address, block};
use std::fmt::Write;
use veilbuzz::Class;

pub enum Piece {
    Bold(String),
    Plain(String),
    /// A class's word.
    Word(Class),
}

pub type Row = Vec<Piece>;

/// The sizes of letters, bold and not.
pub const BOLD: f64 = 13.0;
pub const PLAIN: f64 = 11.5;

/// How high a row is, and the room above all and below.
const ROW: f64 = 18.0;
const ABOVE: f64 = 5.5;

/// Widths are whole multiples of this, so that nodes below each other are in line more often.
const STEP: f64 = 8.0;

/// What stands between two pieces of a row.
const BETWEEN: f64 = 8.0;

/// The room on either side of a class's word, on its colour.
const BESIDE: f64 = 5.0;

/// The classes that a node shows: of each touch, or of its bare step.
pub fn shown<'a>(findings: &'a Findings, node: usize) -> &'a [Class] {
    &findings.analysis.classes[node][..findings.touches[node].len().clamp(1, 2)]
}

/// What a node of a chart says.
pub fn caption(findings: &Findings, number: usize) -> Vec<Row> {
    let node = findings.node(number);
    let name = Piece::Bold(shortened(&node.name, LONGEST));
    let classes = shown(findings, number);
    let Some(reference) = reference(node) else {
        return vec![vec![name, Piece::Plain("step".into()), Piece::Word(classes[0])]];
    };
    let touches = findings.touches[number].iter().zip(classes);
    let rows = touches.map(|(touch, class)| {
        let at = format!("block {}, set {}", block(touch.block), touch.set);
        vec![Piece::Word(*class), Piece::Plain(at)]
    });
    [vec![name, Piece::Plain(doing(&reference))]]
        .into_iter()
        .chain(rows)
        .collect()
}

/// What a node does: the address, its name where it has one, and the size where it is more than a byte.
fn doing(reference: &Reference) -> String {
    let at = address(reference.address);
    let name = match reference.name {
        Some(name) => format!(" ({})", shortened(name, LONGEST)),
        None => String::new(),
    };
    let size = match reference.bytes {
        1 => String::new(),
        bytes => format!(" size {bytes}"),
    };
    format!("{} {at}{name}{size}", reference.verb)
}

impl Piece {
    pub fn width(&self) -> f64 {
        match self {
            Piece::Bold(words) => width(words, BOLD),
            Piece::Plain(words) => width(words, PLAIN),
            Piece::Word(class) => width(&class.to_string(), PLAIN) + 2.0 * BESIDE,
        }
    }

    fn svg(&self, [x, y]: Point) -> String {
        match self {
            Piece::Bold(words) => text(words, [x, y + 4.5], BOLD, r#" font-weight="bold""#),
            Piece::Plain(words) => text(words, [x, y + 4.0], PLAIN, ""),
            Piece::Word(class) => {
                let size = Size {
                    width: self.width(),
                    height: 15.0,
                };
                let fill = format!(r#"fill="{}""#, look(*class).ink);
                let ground = Outline::Sharp.svg([x + size.width / 2.0, y], size, &fill);
                let white = r##" fill="#ffffff" font-weight="bold""##;
                ground + &text(&class.to_string(), [x + BESIDE, y + 4.0], PLAIN, white)
            }
        }
    }

    /// For Graphviz.
    fn dot(&self) -> String {
        match self {
            Piece::Bold(words) => format!("<b>{}</b>", escaped(words)),
            Piece::Plain(words) => escaped(words),
            Piece::Word(class) => format!(r#"<font color="{}"><b>{class}</b></font>"#, look(*class).ink),
        }
    }
}

fn row_width(row: &Row) -> f64 {
    let pieces: f64 = row.iter().map(Piece::width).sum();
    pieces + BETWEEN * row.len().saturating_sub(1) as f64
}

/// The size of an outline with these rows in it.
pub fn size(rows: &[Row], outline: Outline) -> Size {
    let widest = rows.iter().map(row_width).fold(0.0, f64::max);
    Size {
        width: ((widest + 2.0 * outline.margin()) / STEP).ceil() * STEP,
        height: ROW * rows.len() as f64 + 2.0 * ABOVE,
    }
}

/// The rows around a point.
pub fn svg(rows: &[Row], [x, y]: Point) -> String {
    let mut out = String::new();
    let top = y - ROW * rows.len() as f64 / 2.0;
    for (number, row) in rows.iter().enumerate() {
        let mut from = x - row_width(row) / 2.0;
        for piece in row {
            let _ = write!(out, "{}", piece.svg([from, top + ROW * (number as f64 + 0.5)]));
            from += piece.width() + BETWEEN;
        }
    }
    out
}

/// The rows as Graphviz's label.
pub fn dot(rows: &[Row]) -> String {
    let row = |row: &Row| row.iter().map(Piece::dot).collect::<Vec<String>>().join(" ");
    rows.iter().map(row).collect::<Vec<String>>().join("<br/>")
}
