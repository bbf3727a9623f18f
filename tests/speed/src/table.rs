//! The table of ratios, with what each target asks for and what came of it.

use crate::measures::{shown, Case, Measure};
use crate::plot;
use crate::targets::{Ratios, TARGETS};
use std::fs;

/// Prints the table as it is measured, and draws the picture into a file.
pub fn print(picture: &str) {
    println!("| chart | nodes | blocks | cleared | passes | ours, µs | second, µs | unchanged, µs | ours / second | ours / unchanged |");
    println!("|---|---|---|---|---|---|---|---|---|---|");
    let measured: Vec<(Case, Ratios)> = Case::all().map(|case| (case, row(case, &case.measure()))).collect();
    for case in Case::straddling() {
        row(case, &case.measure());
    }
    println!("\n| against | charts, straddling apart | target | largest ratio | nodes | blocks | cleared | met |");
    println!("|---|---|---|---|---|---|---|---|");
    for target in TARGETS {
        let (case, ratio) = target.worst(&measured);
        println!(
            "| {} | {} | {} | {} | {} | {} | {} | {} |",
            target.against.name(),
            target.charts,
            target.most,
            shown(ratio),
            case.nodes,
            case.blocks,
            yes(case.cleared),
            yes(ratio <= target.most)
        );
    }
    fs::write(picture, plot::svg(&measured)).expect("the picture can be written");
}

/// Prints the row of a case. Its ratios.
fn row(case: Case, measure: &Measure<3>) -> Ratios {
    let Case { nodes, blocks, .. } = case;
    let [ours, second, unchanged] = measure.best();
    let ratios = [ours / second, ours / unchanged];
    println!(
        "| {} | {nodes} | {blocks} | {} | {} | {ours:.2} | {second:.2} | {unchanged:.2} | {} | {} |",
        case.kind.name(),
        yes(case.cleared),
        measure.passes,
        shown(ratios[0]),
        shown(ratios[1])
    );
    ratios
}

fn yes(whether: bool) -> &'static str {
    if whether {
        "yes"
    } else {
        "no"
    }
}
