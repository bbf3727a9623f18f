//! The chart as a picture, in SVG.

use crate::cache::Cache;
use crate::caption;
use crate::dot::{plain, Unlaid, DOT, PATIENCE};
use crate::dot_source::bare;
use crate::figure::{arrow_svg, item_svg};
use crate::findings::Findings;
use crate::laid::{laid, Laid};
use crate::legend::legend;
use crate::lettering::{fitting, lines, shortened, text, FONTS};
use crate::look::{GROUND, INK, LINE};
use crate::markup::escaped;
use crate::paint::Painted;
use crate::plan::Plan;
use crate::spline::Point;
use crate::summary::Summary;
use crate::trouble::Trouble;
use crate::words::counted;
use std::ffi::OsStr;

/// Why there is no picture, and what to do.
#[derive(Debug)]
pub struct Undrawn {
    pub what: String,
    pub mend: String,
}

impl From<Undrawn> for Trouble {
    fn from(Undrawn { what, mend }: Undrawn) -> Trouble {
        Trouble::Unanswered { what, mend }
    }
}

/// The room around all.
const MARGIN: f64 = 26.0;

/// No picture is narrower within it: the words around the chart need as much.
const NARROWEST: f64 = 320.0;

/// The chart as one element `svg`, which can stand in a page too.
pub fn picture(findings: &Findings) -> Result<String, Undrawn> {
    let plan = Plan::of(findings);
    let layout =
        plain(OsStr::new(DOT), bare(&plan), PATIENCE).and_then(|text| laid(&text, &plan).ok_or(Unlaid::Failed));
    Ok(drawn(findings, &plan, &layout.map_err(undrawn)?))
}

/// What is said where there is no layout.
pub fn undrawn(why: Unlaid) -> Undrawn {
    let (what, mend) = match why {
        Unlaid::Missing => (
            format!("there is no {DOT} on PATH, which lays pictures out"),
            "'apt-get install graphviz' installs it; './desk draw FILE --dot' writes its source without it",
        ),
        Unlaid::Failed => (
            format!("{DOT} was run, and left no layout that can be read"),
            "is it Graphviz's? 'dot -V' says; 'apt-get install graphviz' installs it",
        ),
        Unlaid::Late => (
            format!(
                "{DOT} was run, and had laid out nothing after {} seconds",
                PATIENCE.as_secs()
            ),
            "draw a part of the program, or hand what './desk draw FILE --dot' writes to another of Graphviz's programs, as sfdp",
        ),
    };
    Undrawn {
        what,
        mend: mend.into(),
    }
}

/// The whole, once it is known where all is.
pub fn drawn(findings: &Findings, plan: &Plan, laid: &Laid) -> String {
    let [left, top, right, bottom] = edges(plan, laid);
    let width = (right - left).max(NARROWEST);
    let heading = heading(findings, width);
    let down = MARGIN + 18.0 * heading.len() as f64 + 16.0;
    // the chart in the middle, where it is narrower than what stands around it
    let moved = [MARGIN + (width - (right - left)) / 2.0 - left, down - top];
    let mut out = String::new();
    for (number, line) in heading.iter().enumerate() {
        let weight = if number == 0 { r#" font-weight="bold""# } else { "" };
        let size = if number == 0 { caption::BOLD } else { caption::PLAIN };
        out += &text(line, [MARGIN, MARGIN + 10.0 + 18.0 * number as f64], size, weight);
        out.push('\n');
    }
    let place = |[x, y]: &Point| [x + moved[0], y + moved[1]];
    let middles: Vec<Point> = laid.items.iter().map(place).collect();
    for (arrow, spline) in plan.arrows.iter().zip(&laid.arrows) {
        let spline: Vec<Point> = spline.iter().map(place).collect();
        out += &arrow_svg(findings, plan, &middles, arrow, &spline);
    }
    for (item, at) in plan.items.iter().zip(&middles) {
        out += &item_svg(findings, item, *at);
    }
    let under = down + bottom - top + 22.0;
    let (legend, high) = legend(findings, plan, [MARGIN, under], width);
    let (wide, high) = (width + 2.0 * MARGIN, under + high + MARGIN - 8.0);
    out += &legend;
    framed(findings, [wide.ceil(), high.ceil()], &out)
}

/// The ground that all stands on, with what it is said to be for those who do not see it.
fn framed(findings: &Findings, [width, height]: [f64; 2], inside: &str) -> String {
    let title = escaped(&format!(
        "{}: {}",
        findings.known.file,
        Cache::of(&findings.known.header).words()
    ));
    let mut summary = Painted::default();
    Summary::of(&findings.analysis.classes).write(&mut summary);
    let about = escaped(&format!(
        "{}, of which {} is the entry; {}",
        counted(findings.known.nodes.len(), "node"),
        findings.name(findings.known.header.entry),
        summary.text(false).trim_end()
    ));
    let [ground, edge] = GROUND;
    let (inner_width, inner_height) = (width - 2.0, height - 2.0);
    format!(
        r#"<svg xmlns="http://www.w3.org/2000/svg" viewBox="0 0 {width} {height}" width="{width}" height="{height}" role="img" aria-labelledby="chart-title chart-about">
<title id="chart-title">{title}</title>
<desc id="chart-about">{about}</desc>
<defs><marker id="chart-head" viewBox="0 0 10 10" refX="9" refY="5" markerWidth="9" markerHeight="9" markerUnits="userSpaceOnUse" orient="auto"><path d="M0 0.8 L10 5 L0 9.2 z" fill="{LINE}"/></marker></defs>
<rect x="1" y="1" width="{inner_width}" height="{inner_height}" rx="12" fill="{ground}" stroke="{edge}"/>
<g font-family="{FONTS}" fill="{INK}">
{inside}</g>
</svg>
"#
    )
}

/// The lines above the chart: what it is of, and for which cache.
fn heading(findings: &Findings, width: f64) -> Vec<String> {
    let file = shortened(&findings.known.file, fitting(width, caption::BOLD));
    let cache = Cache::of(&findings.known.header).words();
    let cache = lines(&cache, fitting(width, caption::PLAIN));
    [file].into_iter().chain(cache).collect()
}

/// The least and the most to the right and down that anything is at.
fn edges(plan: &Plan, laid: &Laid) -> [f64; 4] {
    let corners = plan.items.iter().zip(&laid.items).flat_map(|(item, [x, y])| {
        let (wide, high) = (item.size.width / 2.0, item.size.height / 2.0);
        [[x - wide, y - high], [x + wide, y + high]]
    });
    let points = corners.chain(laid.arrows.iter().flatten().copied());
    points.fold(
        [f64::MAX, f64::MAX, f64::MIN, f64::MIN],
        |[left, top, right, bottom], [x, y]| [left.min(x), top.min(y), right.max(x), bottom.max(y)],
    )
}
