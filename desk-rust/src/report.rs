//! `./desk report`: each node with what it does and its class, how many there are of each class, and the map of sets.

use crate::answer::Answer;
use crate::cache::{write_heading, Cache};
use crate::findings::{targets, Findings};
use crate::json::{list, object, Value};
use crate::known::Known;
use crate::paint::{Colour, Painted};
use crate::reference::doing;
use crate::sets::Map;
use crate::summary::Summary;
use crate::table::{Cell, Side, Table};
use crate::touches::Touch;
use crate::trouble::Trouble;
use crate::words::block;
use veilbuzz::Class;

pub fn report(known: &Known) -> Result<Answer, Trouble> {
    let findings = Findings::of(known)?;
    let summary = Summary::of(&findings.analysis.classes);
    let map = Map::of(&findings);
    let mut words = Painted::default();
    write_heading(known, &mut words);
    words.line("");
    nodes(&findings, &mut words);
    words.line("");
    summary.write(&mut words);
    let ends = ends(&findings);
    words.line(match ends.as_slice() {
        [] => "the program has no end: each node leads on".into(),
        ends => format!("the program ends at {}", findings.names(ends, "or")),
    });
    words.line("");
    map.write(&mut words);
    let json = object([
        ("file", known.file.as_str().into()),
        ("cache", Cache::of(&known.header).json()),
        ("passes", findings.analysis.passes.into()),
        ("blocks", findings.analysis.blocks.len().into()),
        ("entry", findings.brief_json(known.header.entry)),
        (
            "nodes",
            list((0..known.nodes.len()).map(|node| node_json(&findings, node))),
        ),
        ("summary", summary.json()),
        ("ends", findings.briefs_json(&ends)),
        ("sets", map.json()),
    ]);
    Ok(Answer::new(words, json))
}

/// The nodes that a walk comes to and that lead nowhere. A forgotten arrow shows here.
pub fn ends(findings: &Findings) -> Vec<usize> {
    let nodes = 0..findings.known.nodes.len();
    let is_end = |node: &usize| findings.reached(*node) && findings.node(*node).fields.outs == 0;
    nodes.filter(is_end).collect()
}

fn nodes(findings: &Findings, out: &mut Painted) {
    let columns = ["node", "does", "goes to", "block", "set", "class"].map(|heading| (heading, Side::Left));
    let mut table = Table::new(columns);
    for (number, node) in findings.known.nodes.iter().enumerate() {
        let mark = if findings.is_entry(number) { " (entry)" } else { "" };
        let to: Vec<&str> = targets(&node.fields).map(|target| findings.name(target)).collect();
        let to = if to.is_empty() { "(end)".into() } else { to.join(", ") };
        let [class, second] = findings.analysis.classes[number];
        let mut touches = findings.touches[number].iter();
        let [block, set] = placed(touches.next());
        table.row([
            format!("{}{mark}", node.name).into(),
            doing(node).into(),
            to.into(),
            block,
            set,
            coloured(class),
        ]);
        if let Some(touch) = touches.next() {
            let [block, set] = placed(Some(touch));
            table.row(["".into(), "".into(), "".into(), block, set, coloured(second)]);
        }
    }
    table.write(0, out);
}

/// The block of a touch and its set, where there is a touch.
fn placed(touch: Option<&Touch>) -> [Cell; 2] {
    match touch {
        Some(touch) => [block(touch.block).into(), touch.set.to_string().into()],
        None => ["", ""].map(Cell::from),
    }
}

fn coloured(class: Class) -> Cell {
    Cell::coloured(class.to_string(), Colour::of(class))
}

fn node_json(findings: &Findings, node: usize) -> Value {
    let touch = |(touch, class): (&Touch, &Class)| {
        object([
            ("block", u64::from(touch.block).into()),
            ("set", u64::from(touch.set).into()),
            ("class", class.to_string().into()),
        ])
    };
    let touches = findings.touches[node].iter().zip(&findings.analysis.classes[node]);
    let mut fields = findings.full_json(node);
    fields.push(("touches", list(touches.map(touch))));
    Value::Object(fields)
}
