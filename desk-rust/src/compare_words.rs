//! Two charts side by side, in words: the caches, the classes that differ, the totals, and the lines that differ with what each causes.

use crate::cache::write_heading;
use crate::compare::{Comparison, Half};
use crate::compare_lines::lines;
use crate::compare_totals::{totals, verdicts};
use crate::paint::{Colour, Painted};
use crate::table::{Side, Table};
use crate::totals_table::classes;
use crate::words::counted;

/// What the two charts are called.
pub const LETTERS: [&str; 2] = ["A", "B"];

pub fn words(comparison: &Comparison) -> Painted {
    let mut out = Painted::default();
    for (letter, half) in LETTERS.iter().zip(comparison.halves()) {
        out.piece(format!("{letter}  "), Some(Colour::Bold));
        write_heading(half.known(), &mut out);
    }
    of_bytes(comparison.halves(), &mut out);
    out.line("");
    if comparison.lines.is_empty() && comparison.nodes.are_same() {
        out.line("nothing differs, comments, spaces and the order of lines aside");
        return out;
    }
    nodes(comparison, &mut out);
    out.line("");
    totals(comparison, &mut out);
    verdicts(comparison, &mut out);
    if !comparison.lines.is_empty() {
        out.line("");
        lines(comparison, &mut out);
    }
    out
}

/// Whose names and lines are made up, if there are such.
fn of_bytes(halves: [&Half; 2], out: &mut Painted) {
    let of_bytes = LETTERS.iter().zip(halves).filter(|(_, half)| half.is_of_bytes());
    let letters: Vec<&str> = of_bytes.map(|(letter, _)| *letter).collect();
    let made_up = "n0, n1 and so on, and the lines are those of './desk text'";
    match letters.as_slice() {
        [] => {}
        [letter] => {
            out.line(format!(
                "{letter} is a chart of bytes, without names: its nodes are called {made_up}"
            ));
            out.line("'./desk chart FILE -o CHART' makes a chart of bytes of the other, too: nodes of such are matched by number");
        }
        _ => out.line(format!(
            "both are charts of bytes, without names: the nodes are called {made_up}"
        )),
    }
}

fn nodes(comparison: &Comparison, out: &mut Painted) {
    let [one, other] = comparison.halves();
    let nodes = &comparison.nodes;
    if !nodes.differ.is_empty() {
        let [a, b] = LETTERS.map(|letter| (letter, Side::Left));
        let mut table = Table::new([("node", Side::Left), a, b]);
        for [here, there] in &nodes.differ {
            table.row([
                one.findings.name(*here).into(),
                classes(one.classed().classes[*here]),
                classes(other.classed().classes[*there]),
            ]);
        }
        table.write(0, out);
        out.line("");
    }
    out.line(match (nodes.differ.len(), nodes.same) {
        (0, 0) => "no node is in both".into(),
        (0, same) => format!("classes are the same at {}", counted(same, "node")),
        (differ, same) => format!(
            "classes differ at {}, and are the same at {same}",
            counted(differ, "node")
        ),
    });
    for (letter, half, only) in [
        (LETTERS[0], one, &nodes.only_in_one),
        (LETTERS[1], other, &nodes.only_in_other),
    ] {
        if !only.is_empty() {
            out.line(format!("only in {letter}: {}", half.findings.names(only, "and")));
        }
    }
}
