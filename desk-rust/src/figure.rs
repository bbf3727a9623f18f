//! The parts of a picture, each drawn in its place.

use crate::caption;
use crate::findings::Findings;
use crate::look::{look, Look, BOLD, DASHES, INK, LINE};
use crate::markup::escaped;
use crate::outline::{Outline, Size};
use crate::plan::{class, Arrow, Item, Part, Plan};
use crate::reference::doing;
use crate::spline::{between, svg, Point};
use crate::words::block;

/// An arrow, from outline to outline.
pub fn arrow_svg(findings: &Findings, plan: &Plan, middles: &[Point], arrow: &Arrow, spline: &[Point]) -> String {
    let holds = |item: usize| {
        move |[x, y]: Point| {
            let Item { outline, size, .. } = plan.items[item];
            let [middle_x, middle_y] = middles[item];
            outline.holds(size, [x - middle_x, y - middle_y])
        }
    };
    let line = svg(&between(spline, holds(arrow.from), holds(arrow.to)));
    let dashes = match arrow.reached {
        true => String::new(),
        false => format!(r#" stroke-dasharray="{DASHES}""#),
    };
    let named = |item: usize| match plan.items[item].part {
        Part::Node(node) | Part::Tag(_, node) => escaped(findings.name(node)),
        Part::Start => "the start".into(),
        Part::End(_) => "the end".into(),
    };
    let (from, to) = (named(arrow.from), named(arrow.to));
    format!(
        "<path d=\"{line}\" fill=\"none\" stroke=\"{LINE}\" stroke-width=\"1.5\" marker-end=\"url(#chart-head)\"{dashes}><title>{from} to {to}</title></path>\n"
    )
}

pub fn item_svg(findings: &Findings, item: &Item, at: Point) -> String {
    let words = caption::svg(&item.rows, at);
    match item.part {
        Part::Start | Part::End(_) => mark(&item.part, at) + "\n",
        Part::Tag(..) => format!("{}{words}\n", tagged(at, item.size)),
        Part::Node(node) => {
            let border = bordered(&look(class(findings, node)), at, item.size, findings.is_entry(node));
            let tip = escaped(&told(findings, node));
            format!("<g id=\"chart-n{node}\"><title>{tip}</title>{border}{words}</g>\n")
        }
    }
}

/// All that there is to tell of a node in one line.
fn told(findings: &Findings, number: usize) -> String {
    let node = findings.node(number);
    let classes = findings.analysis.classes[number];
    let touches = findings.touches[number].iter().zip(classes);
    let mut told = format!("{}: {}", node.name, doing(node));
    for (touch, class) in touches {
        told += &format!("; block {}, set {}: {class}", block(touch.block), touch.set);
    }
    told
}

/// An outline with its border, which is bold at the entry.
pub fn bordered(look: &Look, at: Point, size: Size, entry: bool) -> String {
    let (ink, border) = if entry { (INK, BOLD) } else { (look.ink, look.border) };
    let dashes = match look.dashed {
        true => format!(r#" stroke-dasharray="{DASHES}""#),
        false => String::new(),
    };
    let attributes = format!(
        r#"fill="{}" stroke="{ink}" stroke-width="{border}"{dashes}"#,
        look.paper
    );
    look.outline.svg(at, size, &attributes)
}

/// A filled dot where the program begins, and one with a ring around it where it ends.
pub fn mark(part: &Part, [x, y]: Point) -> String {
    let dot = |radius: f64| format!(r#"<circle cx="{x:.1}" cy="{y:.1}" r="{radius}" fill="{INK}"/>"#);
    match part {
        Part::End(_) => format!(
            r#"<circle cx="{x:.1}" cy="{y:.1}" r="6" fill="none" stroke="{INK}" stroke-width="1.5"/>{}"#,
            dot(3.5)
        ),
        _ => dot(6.5),
    }
}

/// The border of a tag.
pub fn tagged(at: Point, size: Size) -> String {
    let attributes = format!(r##"fill="#ffffff" stroke="{LINE}" stroke-dasharray="1.5 2.5""##);
    Outline::Rounded.svg(at, size, &attributes)
}
