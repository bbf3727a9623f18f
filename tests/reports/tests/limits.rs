//! The most nodes of rule 1.4, and what follows from them, stand once each in the definitions, the code, the second program (from which all tests
//! take them), the wrapper, the C header and the table of that rule; README.md and REFUSALS.md have the most nodes too, and the words of refusals
//! the most nodes and enough passes. No other text spells them, but for those that are left out below: it would go stale unseen when the limit
//! moves.

use reports::numbers::{numbers, spelled};
use reports::pages::cells;
use reports::program::file;
use reports::tree::{text, texts};
use second::limits::{AGES, BLOCKS, CLASSES, LONGEST, NODES, PASSES, TOUCHES, WAYS};
use second::report::INPUT;
use std::fs;

const RULES: &str = "docs/RULES.md";
const REFUSALS: &str = "docs/REFUSALS.md";

/// The limits by the names that rule 1.4 has for them, in its order.
const NAMED: [(&str, usize); 9] = [
    ("the most nodes", NODES),
    ("the most blocks", BLOCKS),
    ("the most ways", WAYS),
    ("the most touches of a node", TOUCHES),
    ("the most ages of one kind", AGES),
    ("the most classes", CLASSES),
    ("the longest chart", LONGEST),
    ("the bytes that are taken", INPUT),
    ("enough passes", PASSES),
];

/// The limits that are looked for, with their neighbours: 64, 8 and 2 stand for too much else.
const LIMITS: [usize; 11] = [
    NODES - 1,
    NODES,
    NODES + 1,
    AGES,
    CLASSES,
    LONGEST - 8,
    LONGEST,
    INPUT,
    INPUT + 1,
    PASSES - 1,
    PASSES,
];

/// What they were while a chart had 256 nodes at most, which only landings and measurements still have. When a limit moves, its numbers go here.
const FORMER: [usize; 6] = [2_056, 2_057, 2_058, 16_384, 262_400, 262_401];

/// The same in words, since 256 stands for too much else.
const FORMER_WORDS: [&str; 7] = [
    "255 nodes",
    "256 nodes",
    "257 nodes",
    "node 255",
    "node 256",
    "1 to 256",
    "_256_nodes",
];

/// Where they stand, and which of them.
const PLACES: [(&str, &[usize]); 10] = [
    ("README.md", &[NODES, NODES, PASSES]),
    ("crates/chart/specs/Geometry.antt", &[NODES]),
    ("crates/chart/src/shape.rt", &[NODES]),
    (REFUSALS, &[NODES]),
    (RULES, &[NODES, AGES, CLASSES, LONGEST, INPUT, PASSES]),
    ("desk-rust/tests/golden/sessions/new-and-refusal.session", &[NODES]),
    ("include/veilbuzz.h", &[NODES, NODES, PASSES]),
    ("tests/second/src/limits.rs", &[NODES]),
    ("wrapper/src/limits.rs", &[NODES]),
    ("wrapper/src/words.rs", &[NODES, PASSES]),
];

/// Soundings, which the prover holds to the definitions, texts of what was measured and of what has moved, and a picture with sizes of caches.
const LEFT_OUT: [&str; 10] = [
    "crates/chart/specs/Sounded.antt",
    "crates/demands/specs/Anywhere.antt",
    "crates/demands/specs/Sounded.antt",
    "crates/writer/specs/Sounded.antt",
    "docs/SPEED.md",
    "docs/chains.svg",
    "docs/growth.svg",
    "docs/landings/",
    "docs/speed.svg",
    "docs/sweep.svg",
];

/// The same numbers where they are no limits: weights of bits, an address, and a stack in KiB.
const OTHERS: [(&str, &[usize]); 9] = [
    ("crates/chart/proofs/Bytes.antt", &[1_024]),
    ("crates/chart/specs/Bytes.antt", &[1_024]),
    ("crates/chart/specs/Sizes.antt", &[1_024]),
    ("crates/chart/src/words.rt", &[65_536]),
    ("crates/demands/specs/Charts.antt", &[1_024]),
    ("crates/demands/specs/Straddling.antt", &[1_024]),
    (
        "crates/writer/must-fail/first_and_second_arrow_swapped.edit",
        &[65_536, 65_536],
    ),
    ("crates/writer/src/packing.rt", &[65_536, 1_024, 65_536]),
    ("tests/reports/tests/stack.rs", &[1_024]),
];

/// All texts of the repository in which no other number is to be a limit, each with its name.
fn held() -> Vec<(String, String)> {
    let here = "tests/reports/tests/limits.rs";
    let built = [".git", "target"];
    let top = fs::read_dir(file("")).expect("the repository can be listed");
    top.map(|entry| entry.expect("the repository can be listed").file_name())
        .map(|name| name.into_string().expect("a name in UTF-8"))
        .filter(|name| !built.contains(&name.as_str()))
        .flat_map(|name| texts(&name))
        .filter(|(name, _)| name != here && !LEFT_OUT.iter().any(|left_out| name.starts_with(left_out)))
        .collect()
}

#[test]
fn numbers_are_found_however_they_are_spelled() {
    assert_eq!(
        numbers("1024, 8_200 or 1,049,601 (65,536)."),
        [1_024, 8_200, 1_049_601, 65_536]
    );
    assert_eq!(
        numbers("0x400 1024u64 1,025th of_1024_nodes"),
        [1_024, 1_024, 1_025, 1_024]
    );
    assert_eq!(numbers("u64 x1024 w8"), []);
    assert_eq!(
        numbers("[1024,64] [1024,128] 256,1024 §256-257,"),
        [1_024, 64, 1_024, 128, 256, 1_024, 256, 257]
    );
    assert_eq!(numbers("| 8,200|8,201 |"), [8_200, 8_201]);
    assert_eq!(numbers(""), []);
    assert_eq!(
        [7, 64, 1_024, 65_536, 1_049_601].map(spelled),
        ["7", "64", "1,024", "65,536", "1,049,601"]
    );
}

#[test]
fn the_page_of_rules_has_each_limit_by_its_name() {
    let page = text(RULES);
    let after = page.split("- **1.4**").nth(1).expect("there is a rule 1.4");
    let table = after.lines().skip_while(|line| !line.trim().starts_with('|'));
    let rows: Vec<Vec<String>> = table.map_while(|line| cells(line.trim())).skip(2).collect();
    let told: Vec<(&str, &str)> = rows.iter().map(|row| (row[0].as_str(), row[1].as_str())).collect();
    let limits = NAMED.map(|(name, number)| (name, spelled(number)));
    let limits: Vec<(&str, &str)> = limits.iter().map(|(name, number)| (*name, number.as_str())).collect();
    assert_eq!(told, limits);
}

#[test]
fn the_page_of_refusals_has_the_most_nodes_where_it_tells_of_5_and_the_most_blocks_at_10() {
    let page = text(REFUSALS);
    let given = format!("Given if the number of nodes is not 1 to {}.", spelled(NODES));
    assert!(page.contains(&given), "{REFUSALS} has no '{given}'");
    let heading = format!("## 10. More than {BLOCKS} blocks");
    assert!(page.contains(&heading), "{REFUSALS} has no '{heading}'");
}

#[test]
fn the_readme_has_the_limits_in_its_table() {
    let page = text("README.md");
    for row in [
        format!("| nodes | 1 to {}, ", spelled(NODES)),
        format!("| blocks | lines of memory that a chart touches: at most {BLOCKS} |"),
        format!("| ways in a set | 1 to {WAYS} |"),
    ] {
        assert!(page.contains(&row), "README.md has no row '{row}'");
    }
}

#[test]
fn a_limit_is_spelled_in_its_places_and_nowhere_else() {
    let held = held();
    let named: Vec<(&str, &[usize])> = PLACES.iter().chain(&OTHERS).copied().collect();
    for (place, _) in &named {
        assert!(held.iter().any(|(name, _)| name == place), "there is no {place}");
    }
    let mut faults = vec![];
    for (name, text) in &held {
        let mut found = numbers(text);
        found.retain(|number| LIMITS.contains(number) || FORMER.contains(number));
        let expected = named
            .iter()
            .find(|(place, _)| place == name)
            .map_or(&[][..], |(_, numbers)| numbers);
        if found != expected {
            faults.push(format!("{name} spells {found:?}, and not {expected:?}"));
        }
        let words = FORMER_WORDS.iter().filter(|words| text.contains(**words));
        faults.extend(words.map(|words| format!("{name} says '{words}'")));
    }
    assert!(
        faults.is_empty(),
        "a limit is to be named as in rule 1.4, or taken from where it stands:\n{}",
        faults.join("\n")
    );
}
