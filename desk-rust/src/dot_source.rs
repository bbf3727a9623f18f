//! A picture as Graphviz's source.

use crate::cache::Cache;
use crate::caption;
use crate::findings::Findings;
use crate::look::{look, Look, BOLD, GROUND, INK, LINE};
use crate::markup::escaped;
use crate::outline::Outline;
use crate::plan::{class, Item, Part, Plan};
use std::fmt::Write;

/// So many pixels an inch has, in which Graphviz counts.
pub const INCH: f64 = 72.0;

/// The room between nodes of a row, and between rows.
const BESIDE: f64 = 26.0;
const BELOW: f64 = 22.0;

/// From so many arrows on Graphviz is told not to take all the time it likes.
const MANY: usize = 300;

/// The source that is laid out: where all is and how large, without words, so that no font of a machine has a part in it.
pub fn bare(plan: &Plan) -> String {
    source(plan, "", |_| String::new())
}

/// The same with words, outlines and colours, for Graphviz to draw.
pub fn full(findings: &Findings, plan: &Plan) -> String {
    let cache = Cache::of(&findings.known.header).words();
    let head = format!(
        "  graph [label=<<b>{}</b><br/>{cache}>, labelloc=t, bgcolor=\"{}\", pad=0.3, fontname=monospace]\n  \
         node [fontname=monospace, fontsize=10, style=filled, fillcolor=white, color=\"{LINE}\"]\n  edge [color=\"{LINE}\"]\n",
        escaped(&findings.known.file).replace('\\', r"\\"),
        GROUND[0]
    );
    source(plan, &head, |item| dressed(findings, item))
}

fn source(plan: &Plan, head: &str, dressed: impl Fn(&Item) -> String) -> String {
    let mut out = format!(
        "digraph chart {{\n  graph [nodesep={:.4}, ranksep={:.4}{}]\n  node [fixedsize=true, shape=box, label=\"\"]\n{head}",
        BESIDE / INCH,
        BELOW / INCH,
        if plan.arrows.len() > MANY { ", nslimit=1, nslimit1=1" } else { "" }
    );
    for item in &plan.items {
        let (width, height) = (item.size.width / INCH, item.size.height / INCH);
        let dressed = dressed(item);
        let _ = writeln!(out, "  {} [width={width:.4}, height={height:.4}{dressed}]", item.part);
    }
    for arrow in &plan.arrows {
        let [from, to] = [arrow.from, arrow.to].map(|item| plan.items[item].part);
        let dashed = if arrow.reached { "" } else { ", style=dashed" };
        let _ = writeln!(out, "  {from} -> {to} [weight={}{dashed}]", arrow.weight);
    }
    for [above, below] in &plan.below {
        let [above, below] = [above, below].map(|item| plan.items[*item].part);
        let _ = writeln!(out, "  {above} -> {below} [style=invis]");
    }
    out + "}\n"
}

/// The attributes that an item has beside its size.
fn dressed(findings: &Findings, item: &Item) -> String {
    let label = caption::dot(&item.rows);
    match item.part {
        Part::Start => format!(", shape=circle, fillcolor=\"{INK}\""),
        Part::End(_) => format!(", shape=doublecircle, fillcolor=\"{INK}\""),
        Part::Tag(..) => format!(", label=<{label}>, style=\"rounded,dotted\""),
        Part::Node(node) => {
            let Look {
                outline,
                ink,
                paper,
                border,
                dashed,
                ..
            } = look(class(findings, node));
            let (ink, border) = match findings.is_entry(node) {
                true => (INK, BOLD),
                false => (ink, border),
            };
            let style = match (dashed, outline) {
                (true, _) => "filled,dashed",
                (_, Outline::Rounded) => "filled,rounded",
                _ => "filled",
            };
            let shape = outline.dot();
            format!(
                ", shape={shape}, label=<{label}>, style=\"{style}\", fillcolor=\"{paper}\", color=\"{ink}\", penwidth={border}"
            )
        }
    }
}
