//! What pictures are drawn of. All colours are of middling brightness, so that they can be seen on a light and on a dark ground.

use std::fmt::Write;

pub const INK: &str = "#7b7b7b";

/// A whole picture of that size, from its elements.
pub fn sheet([width, height]: [f64; 2], elements: &str) -> String {
    format!(
        r#"<svg xmlns="http://www.w3.org/2000/svg" viewBox="0 0 {width} {height}" width="{width}" height="{height}" font-family="sans-serif" font-size="13" font-weight="bold">
{elements}</svg>
"#
    )
}

pub fn text(out: &mut String, [x, y]: [f64; 2], anchor: &str, colour: &str, words: &str) {
    put(
        out,
        format!(r#"<text x="{x:.1}" y="{y:.1}" text-anchor="{anchor}" fill="{colour}">{words}</text>"#),
    );
}

pub fn rectangle(out: &mut String, [x, y]: [f64; 2], [width, height]: [f64; 2], colour: &str) {
    put(
        out,
        format!(r#"<rect x="{x:.1}" y="{y:.1}" width="{width:.1}" height="{height:.1}" fill="{colour}"/>"#),
    );
}

pub fn line(out: &mut String, [x1, y1]: [f64; 2], [x2, y2]: [f64; 2], colour: &str) {
    put(
        out,
        format!(r#"<line x1="{x1:.1}" y1="{y1:.1}" x2="{x2:.1}" y2="{y2:.1}" stroke="{colour}" stroke-width="1.5"/>"#),
    );
}

/// A line that is not in the way of what is drawn over it.
pub fn thin(out: &mut String, [x1, y1]: [f64; 2], [x2, y2]: [f64; 2]) {
    put(
        out,
        format!(
            r#"<line x1="{x1:.1}" y1="{y1:.1}" x2="{x2:.1}" y2="{y2:.1}" stroke="{INK}" stroke-width="0.5" opacity="0.6"/>"#
        ),
    );
}

/// What stands at a point. They can be told apart without their colours.
#[derive(Clone, Copy)]
pub enum Mark {
    Circle,
    Square,
    Triangle,
}

/// A mark at a point, so far from it to each side.
pub fn mark(out: &mut String, mark: Mark, [x, y]: [f64; 2], radius: f64, colour: &str) {
    match mark {
        Mark::Circle => put(
            out,
            format!(r#"<circle cx="{x:.1}" cy="{y:.1}" r="{radius:.1}" fill="{colour}"/>"#),
        ),
        Mark::Square => rectangle(out, [x - radius, y - radius], [2.0 * radius, 2.0 * radius], colour),
        Mark::Triangle => {
            let (top, bottom) = (y - 1.2 * radius, y + radius);
            let (left, right) = (x - 1.2 * radius, x + 1.2 * radius);
            put(
                out,
                format!(
                    r#"<polygon points="{x:.1},{top:.1} {left:.1},{bottom:.1} {right:.1},{bottom:.1}" fill="{colour}"/>"#
                ),
            );
        }
    }
}

/// How a line is drawn.
#[derive(Clone, Copy)]
pub enum Stroke {
    Whole,
    Dashed,
    Dotted,
}

/// A line through points.
pub fn curve(out: &mut String, points: &[[f64; 2]], colour: &str, stroke: Stroke) {
    let points: Vec<String> = points.iter().map(|[x, y]| format!("{x:.1},{y:.1}")).collect();
    let dashes = match stroke {
        Stroke::Whole => "",
        Stroke::Dashed => r#" stroke-dasharray="5 4""#,
        Stroke::Dotted => r#" stroke-dasharray="1.5 4""#,
    };
    put(
        out,
        format!(
            r#"<polyline points="{}" fill="none" stroke="{colour}" stroke-width="1.5"{dashes}/>"#,
            points.join(" ")
        ),
    );
}

fn put(out: &mut String, element: String) {
    writeln!(out, "  {element}").expect("text can be put into a string");
}
