//! Pictures: each node with its name, its word and its outline, each arrow, the entry, the ends, and what no walk comes to.

use crate::golden::{folder, names};
use crate::trying::{known, made};
use crate::xml::{element, Element};
use desk::findings::{targets, Findings};
use desk::known::Known;
use desk::picture::picture;
use desk::trouble::Trouble;
use reports::each::each;
use reports::program::file;
use std::collections::BTreeSet;
use std::fs;
use veilbuzz::Class;

/// The picture of a chart, read.
pub fn pictured(findings: &Findings) -> Element {
    let svg = picture(findings).unwrap_or_else(|undrawn| panic!("{}", Trouble::from(undrawn).words()));
    element(&svg).unwrap_or_else(|| panic!("this is not well-formed:\n{svg}"))
}

/// The findings of a chart that has to have some.
pub fn found(known: &Known) -> Findings<'_> {
    Findings::of(known).unwrap_or_else(|trouble| panic!("{}", trouble.words()))
}

/// Each chart of charts/ that is none in error, and each text beside the sessions.
fn charts() -> Vec<Known> {
    let texts = folder("texts");
    let beside = names(&texts, ".txt").into_iter().map(|name| texts.join(name + ".txt"));
    let charts = file("charts");
    let mut all = names(&charts, ".txt");
    all.retain(|name| !name.starts_with("refused-"));
    assert!(all.len() >= 16, "only {} charts", all.len());
    let all = all.into_iter().map(|name| charts.join(name + ".txt")).chain(beside);
    all.map(|path| known(&fs::read(path).expect("the text can be read")))
        .collect()
}

/// What an element has as an outline: its corners told apart, or how round it is.
fn outline(border: &Element) -> &'static str {
    if border.name == "polygon" {
        let corners: BTreeSet<&str> = border.at("points").split(' ').collect();
        return if corners.len() == 8 { "octagon" } else { "hexagon" };
    }
    let [round, high] = ["rx", "height"].map(|name| border.at(name).parse::<f64>().expect("a number"));
    match round {
        0.0 => "sharp",
        _ if round * 2.0 > high - 0.2 => "pill",
        _ => "rounded",
    }
}

/// The outline and the colour of a class.
fn look(class: Class) -> (&'static str, &'static str) {
    match class {
        Class::Hit => ("pill", "#1b6e3c"),
        Class::Miss => ("sharp", "#a3232b"),
        Class::Kept => ("octagon", "#1f5f8b"),
        Class::Unsure => ("hexagon", "#8f4f00"),
        Class::Unreached => ("sharp", "#66707c"),
        Class::None => ("rounded", "#66707c"),
    }
}

/// The worse of a node's two classes.
fn worse([one, other]: [Class; 2]) -> Class {
    let both = [one, other];
    let order = [Class::Miss, Class::Unsure, Class::Kept, Class::Hit];
    order.into_iter().find(|class| both.contains(class)).unwrap_or(one)
}

/// Holds a picture to its chart, and gives the classes that it shows.
fn hold(known: &Known) -> Vec<Class> {
    let findings = found(known);
    let picture = pictured(&findings);
    let nodes: Vec<&Element> = picture
        .named("g")
        .into_iter()
        .filter(|group| group.at("id").starts_with("chart-n"))
        .collect();
    assert_eq!(nodes.len(), known.nodes.len());
    let mut shown = vec![];
    for (number, node) in nodes.into_iter().enumerate() {
        let (name, classes) = (findings.name(number), findings.analysis.classes[number]);
        assert_eq!(node.at("id"), format!("chart-n{number}"));
        let words = node.words();
        assert!(words.starts_with(&format!("{name} ")), "{words}");
        let touches = findings.touches[number].iter().zip(classes);
        for (touch, class) in touches.clone() {
            let row = format!("{class} block 0x{:X}, set {}", touch.block, touch.set);
            assert!(words.contains(&row), "{words} has no {row}");
        }
        if touches.len() == 0 {
            assert_eq!(words, format!("{name} step {}", classes[0]));
        }
        let (border, class) = (&node.inside[1], worse(classes));
        let (shape, ink) = look(class);
        assert_eq!(outline(border), shape, "{name} is {class}");
        let entry = findings.is_entry(number);
        assert_eq!(border.at("stroke"), if entry { "#1d2733" } else { ink }, "{name}");
        assert_eq!(border.at("stroke-width") == "4", entry, "{name}");
        assert_eq!(
            !border.at("stroke-dasharray").is_empty(),
            class == Class::Unreached,
            "{name}"
        );
        assert!(node.inside[0].text.starts_with(&format!("{name}: ")));
        shown.push(class);
    }
    hold_arrows(&findings, &picture);
    shown
}

/// Holds that each arrow is there once, dashed where no walk goes, with a start and an end for each that there is.
fn hold_arrows(findings: &Findings, picture: &Element) {
    let mut expected = vec![format!("the start to {}", findings.name(findings.known.header.entry))];
    let mut dashed = 0;
    for (number, node) in findings.known.nodes.iter().enumerate() {
        let to: Vec<usize> = targets(&node.fields).collect();
        expected.extend(to.iter().map(|to| format!("{} to {}", node.name, findings.name(*to))));
        match findings.reached(number) {
            true if to.is_empty() => expected.push(format!("{} to the end", node.name)),
            true => {}
            false => dashed += to.len(),
        }
    }
    let arrows: Vec<&Element> = picture
        .named("path")
        .into_iter()
        .filter(|path| path.at("marker-end") == "url(#chart-head)")
        .collect();
    let mut told: Vec<&str> = arrows.iter().map(|path| path.inside[0].text.as_str()).collect();
    told.sort();
    expected.sort();
    assert_eq!(told, expected);
    let shown = arrows
        .iter()
        .filter(|path| !path.at("stroke-dasharray").is_empty())
        .count();
    assert_eq!(shown, dashed);
}

#[test]
fn each_chart_is_drawn_with_all_that_it_has() {
    let charts = charts();
    let shown = std::sync::Mutex::new(vec![]);
    each(&charts, |known| {
        shown.lock().expect("no other failed").extend(hold(known))
    });
    let shown = shown.into_inner().expect("no other failed");
    for class in [
        Class::Hit,
        Class::Miss,
        Class::Kept,
        Class::Unsure,
        Class::Unreached,
        Class::None,
    ] {
        assert!(shown.contains(&class), "no chart has a node that is {class}");
    }
}

#[test]
fn the_legend_has_the_classes_that_there_are_and_no_others() {
    let known = made("cache line 16 sets 1 ways 1 start empty\nentry a\na: read 0x00 -> b\nb: read 0x00\n");
    let words = pictured(&found(&known)).words();
    for there in [
        "miss never",
        "hit always",
        "the program begins",
        "the program ends",
        "1 set of 1 way",
    ] {
        assert!(words.contains(there), "{words}");
    }
    for absent in ["none", "kept", "unsure", "unreached", "to NAME"] {
        assert!(!words.contains(absent), "{words}");
    }
}

#[test]
fn names_of_every_kind_are_drawn_as_they_are() {
    let long = "deep".repeat(40);
    let text = format!(
        "cache line 16 sets 1 ways 1 start empty\nentry 深さ\nat $a.b_ = 0x10\n深さ: read $a.b_ -> ß², {long}\n\
         ß²: -> глубина\nглубина: write $a.b_ + 4 size 4\n{long}: -> n.$_\nn.$_:\n"
    );
    let text = text.replace("$a.b_", "a.b$_");
    let mut known = made(&text);
    known.file = "a<b>&\"c\"\u{1}\\N'.txt".into();
    let findings = found(&known);
    let picture = pictured(&findings);
    let words = picture.words();
    assert!(words.starts_with("a<b>&\"c\"\u{FFFD}\\N'.txt 1 set"), "{words}");
    for there in [
        "深さ read 0x00000010 (a.b$_)",
        "ß² step",
        "глубина write 0x00000014 (a.b$_ + 4) size 4",
        "n.$_ step",
    ] {
        assert!(words.contains(there), "{words} has no {there}");
    }
    assert!(!words.contains(&long), "a name that is too long is shortened");
    let tips: Vec<&str> = picture.named("title").iter().map(|title| title.text.as_str()).collect();
    assert!(
        tips.contains(&format!("{long}: step").as_str()),
        "but not where it is asked for"
    );
}
