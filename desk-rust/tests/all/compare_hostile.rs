//! Hostile pairs: texts with one byte otherwise, the longest that there can be, the most nodes and the most facts.

use crate::comparing::compared;
use crate::hostile::{HEAD, MOST};
use crate::spoilt::{EVERY_LINE, FACTS};
use crate::trying::{chain, tried, Tried};
use reports::each::each;
use std::sync::atomic::{AtomicUsize, Ordering};
use std::time::{Duration, Instant};
use veilbuzz::NODES;

#[test]
fn texts_with_one_byte_otherwise() {
    let compared_pairs = AtomicUsize::new(0);
    for text in [EVERY_LINE, FACTS] {
        let places: Vec<usize> = (0..text.len()).filter(|place| text.is_char_boundary(*place)).collect();
        each(&places, |place| {
            for byte in "\n #:,-+.=0127afx_\u{FEFF}é".chars() {
                let (before, after) = text.split_at(*place);
                let other = format!("{before}{byte}{}", after.chars().skip(1).collect::<String>());
                if tried(other.as_bytes()) == Tried::Answered {
                    compared(text, &other);
                    compared(&other, text);
                    compared_pairs.fetch_add(1, Ordering::Relaxed);
                }
            }
        });
    }
    let pairs = compared_pairs.into_inner();
    assert!(pairs >= 300, "only {pairs} pairs");
}

/// Both ways round, and soon.
fn soon(one: &str, other: &str) {
    let begin = Instant::now();
    compared(one, other);
    compared(other, one);
    let taken = begin.elapsed();
    assert!(taken < Duration::from_secs(30), "{taken:?} for {:?}", &other[..100]);
}

#[test]
fn the_longest_texts() {
    let room = MOST - HEAD.len() - 20;
    let names = (0..).map(|name| format!("at x{name:x}=0\n"));
    let addresses: String = names.take(room / 14).collect();
    let terms = format!("{HEAD}fact a{}", "+a".repeat(room / 2));
    let spaces = format!("{HEAD}{}b:", " ".repeat(room));
    soon(HEAD, &format!("{HEAD}{addresses}"));
    soon(
        &format!("{HEAD}{addresses}"),
        &format!("{HEAD}{}", addresses.replace("=0", "=1")),
    );
    soon(&format!("{terms}<=1\n"), &format!("{terms}<=2\n"));
    soon(HEAD, &format!("{terms}<=2\n"));
    soon(HEAD, &spaces);
    soon(HEAD, &format!("{HEAD}b:{}visits 1", "\u{3000}".repeat(room / 3)));
}

#[test]
fn the_most_nodes_and_the_most_facts() {
    let chain = chain(NODES);
    soon(&chain, &chain.replace("ways 2", "ways 4"));
    soon(&chain, &chain.replace("->", "read 0x20 size 1 ->"));
    soon(
        &chain,
        &chain.replace("n0", "m0").replace(" n", " m").replace("\nn", "\nm"),
    );
    let facts = |sign: &str| -> String { (0..1_000).map(|limit| format!("fact n0 {sign} {limit}\n")).collect() };
    soon(&format!("{chain}{}", facts("<=")), &format!("{chain}{}", facts(">=")));
}
