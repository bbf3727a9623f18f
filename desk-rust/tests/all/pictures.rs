//! The pictures of the pages are those that the desk draws: byte for byte where Graphviz and the machine are of the kind that they were made
//! with, and else all of them but where each thing is.

use crate::dots::script;
use crate::drawn::found;
use crate::place::Place;
use crate::trying::known;
use crate::xml::{element, Element};
use desk::dot::{plain, DOT, PATIENCE};
use desk::dot_source::bare;
use desk::laid::laid;
use desk::picture::drawn;
use desk::plan::Plan;
use reports::program::file;
use reports::tree::text;
use std::env::consts::ARCH;
use std::ffi::OsStr;
use std::fs;
use std::process::Command;

/// Each picture in docs/ that is of the chart of the same name.
pub const PICTURES: [&str; 4] = ["winch-as-built", "winch-swapped", "loop", "branch"];

/// What `dot -V` says of the version that they were made with, and the kind of machine: another one may round otherwise.
const MADE_WITH: &str = "graphviz version 2.43.0 ";
const MADE_ON: &str = "x86_64";

/// The attributes that say where something is, or how large.
const PLACES: [&str; 10] = [
    "x",
    "y",
    "cx",
    "cy",
    "d",
    "points",
    "width",
    "height",
    "viewBox",
    "textLength",
];

/// All of a picture but where it is: how a heading is broken into lines follows from the width.
fn told(picture: &Element) -> Vec<String> {
    let told = |element: &Element| match element.name.as_str() {
        "text" => element.text.clone(),
        name => {
            let kept = element
                .attributes
                .iter()
                .filter(|(name, _)| !PLACES.contains(&name.as_str()));
            let kept: Vec<String> = kept.map(|(name, value)| format!("{name}={value}")).collect();
            format!("<{name} {}> {}", kept.join(" "), element.text)
        }
    };
    let all: Vec<String> = picture.all().into_iter().map(told).collect();
    all.join(" ").split_whitespace().map(String::from).collect()
}

fn read(svg: &str) -> Element {
    element(svg).unwrap_or_else(|| panic!("this is not well-formed:\n{svg}"))
}

#[test]
fn the_pages_pictures_are_those_that_the_desk_draws() {
    let place = Place::new("pictures");
    let version = Command::new(DOT).arg("-V").output().expect("Graphviz is there");
    let version = String::from_utf8_lossy(&version.stderr).into_owned();
    for name in PICTURES {
        let said = place.run(&format!("./desk draw charts/{name}.txt -o {name}.svg"));
        assert_eq!((said.status, said.err.as_str()), (0, ""));
        let drawn = fs::read_to_string(place.path(&format!("{name}.svg"))).expect("it was written");
        let there = text(&format!("docs/{name}.svg"));
        let mend = format!("run './desk draw charts/{name}.txt -o docs/{name}.svg', and look at it");
        assert_eq!(told(&read(&drawn)), told(&read(&there)), "docs/{name}.svg: {mend}");
        if version.contains(MADE_WITH) && ARCH == MADE_ON {
            assert!(drawn == there, "docs/{name}.svg is laid out otherwise: {mend}");
        }
    }
}

/// Another layout of the same chart, from left to right.
#[test]
fn a_picture_is_told_apart_by_all_but_its_layout() {
    let place = Place::new("pictures-otherwise");
    let other = script(&place, "dot", "exec dot -Grankdir=LR \"$@\"");
    let known = known(&fs::read(file("charts/branch.txt")).expect("the text can be read"));
    let findings = found(&known);
    let plan = Plan::of(&findings);
    let by = |program: &OsStr| {
        let text = plain(program, bare(&plan), PATIENCE).expect("Graphviz is there");
        drawn(&findings, &plan, &laid(&text, &plan).expect("it is whole"))
    };
    let (down, right) = (by(OsStr::new(DOT)), by(other.as_os_str()));
    assert_ne!(down, right);
    assert_eq!(told(&read(&down)), told(&read(&right)));
    for (from, to) in [
        ("fork", "work"),
        ("#1f5f8b", "#1f5f8c"),
        ("set 0", "set 1"),
        ("fork to left", "left to fork"),
    ] {
        assert!(down.contains(from), "{from}");
        assert_ne!(told(&read(&down.replace(from, to))), told(&read(&right)), "{from}");
    }
}

/// The smallest letters of a picture, in points, if it is printed as large as a sheet of A4 lets it be, with margins of 12 and 14 mm.
fn printed(picture: &Element) -> f64 {
    let number = |element: &Element, name: &str| element.at(name).parse::<f64>().expect("a number");
    let room = [("width", 210.0 - 24.0), ("height", 297.0 - 28.0)];
    let scale = room.map(|(name, millimetres)| millimetres / 25.4 * 96.0 / number(picture, name));
    let letters = picture.named("text").into_iter().map(|text| number(text, "font-size"));
    let smallest = letters.fold(f64::INFINITY, f64::min);
    smallest * scale[0].min(scale[1]).min(1.0) * 72.0 / 96.0
}

#[test]
fn twenty_nodes_can_be_read_on_a_sheet_of_a4() {
    for name in ["winch-as-built", "winch-swapped"] {
        let points = printed(&read(&text(&format!("docs/{name}.svg"))));
        assert!(points >= 6.0, "{name}: {points} points");
    }
}
