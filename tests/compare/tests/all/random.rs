//! Random charts, whole and damaged, through everything.

use crate::random_bounds;
use crate::random_deadlines;
use crate::random_written;
use charts::random_edges::{EDGES, NODE_EDGES};
use compare::ask::{ANALYSE, CHECK, READ, TOTAL};
use compare::crowds::{END, FULL, FULLEST, LAST_MAY, LAST_MUST, ONE_BIT};
use compare::draw::{ALLOWANCE, ALLOWANCES, LENGTHS};
use compare::features::{BLOCKS, CLASS, CLASSES, GEOMETRIES, GEOMETRY, LIKE, NODES, PASSES, REACHED};
use compare::kept::{self, MARKED, MEETING, MEMBERS, MOST_MEMBERS};
use compare::paid::{KEPT, MET};
use compare::raw::{ANSWER_LIST, HEADER_LIST, READ_ROOM};
use compare::run::run;
use compare::settings::{Settings, LEAST};
use compare::sizes::{NO_SIZE, PAST_THE_END, SIZED_STEP, TOO_MANY};
use compare::straddles::{self, BOTH, PAIRS, SETS, SIZE};
use compare::tables::{ALMOST, NOISE, PASSING};
use compare::tally::Tally;
use compare::trial::FAULTS;
use compare::twins::TWINS;
use compare::walks::{SURE, WALK};
use second::limits;
use std::env;
use std::io::{stdout, Write};

#[test]
fn the_archive_and_the_second_program_agree_on_random_charts() {
    let settings = Settings::from_environment();
    let tally = run(settings).unwrap_or_else(|difference| panic!("{difference}"));
    let Settings { seed, charts, seconds } = settings;
    // not by println, which the harness keeps back where a test passes
    writeln!(stdout(), "seed {seed}: {}", tally.words()).expect("standard output is open");
    let told = env::var_os("VEILBUZZ_CHARTS").is_some();
    assert_eq!(charts.is_some(), told, "only VEILBUZZ_CHARTS says how many charts");
    let least = charts.unwrap_or(LEAST);
    assert!(
        tally.charts() >= least,
        "only {} of {least} charts were compared in {seconds} seconds",
        tally.charts()
    );
    // fewer may do without some of it, as the one chart of a failure that is had again
    if charts.is_none() || tally.charts() >= LEAST {
        expect_answers(&tally);
        expect_charts(&tally);
        expect_kept(&tally);
        expect_twins(&tally);
        expect_straddles(&tally);
        expect_sizes(&tally);
        expect_crowds(&tally);
        expect_edges(&tally);
        expect_lent(&tally);
        random_written::expect(&tally);
        random_deadlines::expect(&tally);
        random_bounds::expect(&tally);
    }
}

/// So that no agreement is an idle one: every answer and every refusal of each function.
fn expect_answers(tally: &Tally) {
    tally.expect_each(READ, 0..=10, 100);
    tally.expect_each(ANALYSE, 0..=12, 100);
    tally.expect_each(CHECK, 0..=11, 100);
    tally.expect_each(TOTAL, 0..=11, 100);
    tally.expect_each(TOTAL, 13..=17, 300);
    tally.expect_each(ANSWER_LIST, 0..=10, 1_000);
    tally.expect_each(HEADER_LIST, 0..=10, 1_000);
    tally.expect_each(READ_ROOM, 0..=3, 1_000);
}

fn expect_charts(tally: &Tally) {
    tally.expect_each(GEOMETRY, 0..=GEOMETRIES - 1, 5);
    for touch in CLASS {
        tally.expect_each(touch, 0..=CLASSES - 1, 5_000);
    }
    tally.expect_each(PASSES, 1..=12, 100);
    for like in LIKE {
        tally.expect(like, 500);
    }
    tally.expect_each(MET[0], 1..=CLASSES - 1, 50_000);
    tally.expect_each(MET[1], 1..=CLASSES - 1, 20_000);
    tally.expect_each(WALK, 0..=1, 50_000);
    tally.expect(SURE, 10_000);
}

/// Blocks that stay, and that almost do; walks on which they miss once, and then hit; tables that mark what no walk reaches.
fn expect_kept(tally: &Tally) {
    tally.expect_each(MEMBERS, 0..=MOST_MEMBERS, 20_000);
    tally.expect_each(kept::PASSES, 1..=12, 10_000);
    let [.., second] = kept::LIKE;
    for like in kept::LIKE {
        tally.expect(like, if like == second { 300 } else { 5_000 });
    }
    tally.expect(MEETING, 10_000);
    for marked in MARKED {
        tally.expect(marked, 1_000);
    }
    for kept in KEPT {
        tally.expect(kept, 50_000);
    }
}

/// Each is refused where the first broken record is, whether that is the one with two arrows to one node or another.
fn expect_twins(tally: &Tally) {
    let [alone, before, behind] = TWINS;
    tally.expect(alone, 2_000);
    tally.expect(before, 100);
    tally.expect(behind, 100);
}

/// Two blocks in one set, in neighbouring ones and around the end, with every two classes; and many charts that have none of it.
fn expect_straddles(tally: &Tally) {
    tally.expect_each(SIZE, 0..=5, 10_000);
    tally.expect_each(SETS, 0..=2, 3_000);
    tally.expect_each(BOTH, 0..=PAIRS - 1, 1_000);
    for like in straddles::LIKE {
        tally.expect(like, 500);
    }
    tally.expect(straddles::LIKE[5], 50_000);
}

/// Sizes that are refused, and blocks that are.
fn expect_sizes(tally: &Tally) {
    tally.expect_each(NO_SIZE, 3..=15, 20);
    tally.expect_each(SIZED_STEP, 1..=15, 20);
    tally.expect_each(PAST_THE_END, 1..=2, 100);
    tally.expect_each(TOO_MANY, 0..=3, 20);
}

/// Most charts reach all their nodes; sets are filled and more than filled; one bit tells blocks apart.
fn expect_crowds(tally: &Tally) {
    tally.expect_each(REACHED, 0..=9, 1_000);
    tally.expect_each(REACHED, 10..=10, 80_000);
    tally.expect_each(FULLEST, 0..=5, 3_000);
    tally.expect_each(FULL, 0..=3, 5_000);
    tally.expect_each(LAST_MUST, 1..=limits::WAYS, 300);
    tally.expect_each(LAST_MAY, 1..=limits::WAYS, 300);
    for one_bit in ONE_BIT {
        tally.expect(one_bit, 8_000);
    }
    for end in END {
        tally.expect(end, 2_000);
    }
}

/// The edges of what is worked on in groups. What is one too many is refused, and counted there.
fn expect_edges(tally: &Tally) {
    for blocks in EDGES.map(|blocks| blocks as usize) {
        if blocks <= limits::BLOCKS {
            tally.expect_each(BLOCKS, blocks..=blocks, 300);
        }
    }
    tally.expect_each(NODES, 1..=2, 5_000);
    for nodes in NODE_EDGES.map(|nodes| nodes as usize) {
        tally.expect_each(NODES, nodes..=nodes, 50);
    }
    let large: u64 = (257..=limits::NODES).map(|nodes| tally.count(NODES, nodes)).sum();
    assert!(
        large >= 1_500,
        "only {large} charts have nodes whose number takes more than a byte"
    );
}

fn expect_lent(tally: &Tally) {
    tally.expect_each(ALLOWANCE, 0..=ALLOWANCES - 1, 10_000);
    for length in LENGTHS {
        tally.expect_each(length, 0..=4, 3_000);
    }
    for kind in PASSING {
        tally.expect_each(kind, 1..=1, 10_000);
    }
    for kind in ALMOST {
        tally.expect(kind, 500);
    }
    // some changes leave a table that passes, if it is not the tightest
    for kind in [ALMOST[0], ALMOST[1], ALMOST[2], ALMOST[3], ALMOST[5]] {
        tally.expect_each(kind, 1..=1, 1_000);
    }
    tally.expect(NOISE, 3_000);
    tally.expect_each(FAULTS, 0..=4, 1_000);
}
