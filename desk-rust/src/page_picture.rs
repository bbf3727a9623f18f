//! The picture on a page. One that would be too small to read on a sheet is not printed.

use crate::findings::Findings;
use crate::lack::Lack;
use crate::page_totals::soft;
use crate::picture::picture;

/// The room that a sheet of A4 has for it, in places of a picture at its own size, without margins and heading.
const SHEET: [f64; 2] = [700.0, 920.0];

/// It may be made so small at the most.
const SMALLEST: f64 = 0.5;

/// The chart as a picture; where it cannot be drawn, why.
pub fn drawn(findings: &Findings) -> String {
    match picture(findings) {
        Ok(picture) if fits(&picture) => format!("<div class=\"picture\">{picture}</div>\n"),
        Ok(picture) => format!(
            "<div class=\"picture large\">{picture}</div>\n\
             <p class=\"soft printed\">The picture is too large for a sheet of paper: <code>./desk draw FILE -o X.svg</code> draws it by itself.</p>\n"
        ),
        Err(undrawn) => soft(&Lack::of(findings.known, &undrawn.into()).words()),
    }
}

/// Whether a picture can be read on a sheet.
fn fits(picture: &str) -> bool {
    let side = |name: &str| {
        let behind = picture.split_once(&format!(" {name}=\""))?.1;
        behind.split_once('"')?.0.parse::<f64>().ok()
    };
    let fits = |(name, room): (&str, f64)| side(name).is_some_and(|side| room >= SMALLEST * side);
    ["width", "height"].into_iter().zip(SHEET).all(fits)
}
