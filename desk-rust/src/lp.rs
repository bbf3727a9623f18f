//! The linear program of a certificate, as CPLEX LP text: the smallest P + sum of multiplier times limit for which the certificate holds.
//!
//! `m0` is the multiplier of fact 0, `r0` what a visit of node 0 is left with, `p0` its potential, `P` the largest potential. The multipliers
//! are the first columns, in their order.

use crate::fact::Fact;
use crate::flow::Flow;
use std::fmt::Write;

pub fn program(flow: &Flow, facts: &[&Fact]) -> String {
    let mut text = String::from("Minimize\n");
    for (number, fact) in facts.iter().enumerate() {
        let _ = writeln!(text, "{:+} m{number}", fact.limit);
    }
    text += "+1 P\nSubject To\n";
    for (node, left) in left(flow, facts).iter().enumerate() {
        if let Some(left) = left {
            let _ = writeln!(text, "r{node}{left} = {}", flow.costs[node]);
        }
    }
    let _ = writeln!(text, "p{0} - r{0} >= 0", flow.entry);
    for (from, to) in flow.arrows() {
        // the same potential on both sides: what is left of a visit must not be above 0
        let potentials = if from == to {
            String::new()
        } else {
            format!("p{to} - p{from} ")
        };
        let _ = writeln!(text, "{potentials}- r{to} >= 0");
    }
    for node in flow.reached() {
        let _ = writeln!(text, "P - p{node} >= 0");
    }
    text += "Bounds\nP free\n";
    for node in flow.reached() {
        let _ = writeln!(text, "p{node} free\nr{node} free");
    }
    text + "End\n"
}

/// Of each node that walks come to, what the facts take from a visit.
fn left(flow: &Flow, facts: &[&Fact]) -> Vec<Option<String>> {
    let mut left: Vec<Option<String>> = flow
        .arrows
        .iter()
        .map(|arrows| arrows.as_ref().map(|_| String::new()))
        .collect();
    for (number, fact) in facts.iter().enumerate() {
        for (node, times) in &fact.coefficients {
            if let Some(left) = &mut left[*node] {
                let _ = write!(left, "\n{times:+} m{number}");
            }
        }
    }
    left
}
