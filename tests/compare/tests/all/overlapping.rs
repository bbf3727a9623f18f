//! What is only read may overlap: one buffer lent twice.

use charts::{Chart, Record};
use veilbuzz::{
    bound, check, total, write, Bounds, Certificate, Costs, Facts, Heading, NodeLists, Side, Table, Totals,
};

/// From an empty cache of two ways a single read misses: both its ages are 2.
const AGES: [u8; 1] = [2];
const MARKS: [u8; 1] = [1];

fn chart() -> Vec<u8> {
    Chart::straight(&[0x00]).shaped(0, 2, 1).bytes()
}

fn table() -> Table<'static> {
    Table {
        must: &AGES,
        may: &AGES,
        marks: &MARKS,
    }
}

#[test]
fn must_and_may_in_one_buffer() {
    assert_eq!(check(&chart(), table()), Ok(true));
}

#[test]
fn floors_and_ceilings_in_one_buffer() {
    let visits = [7];
    let bounds = Bounds {
        floors: &visits,
        ceilings: &visits,
    };
    let answer = total(&chart(), table(), Costs { hit: 1, miss: 10 }, bounds);
    assert_eq!(answer, Ok(Totals { low: 70, high: 70 }));
}

#[test]
fn facts_and_certificate_in_one_buffer() {
    let ten = [10];
    let facts = Facts {
        coefficients: &ten,
        limits: &ten,
    };
    let certificate = Certificate {
        multipliers: &ten,
        potentials: &ten,
        denominator: 1,
    };
    // a visit costs 10 and is left with 10 less 100; Z is the potential, and 10 times the limit
    let costs = Costs { hit: 1, miss: 10 };
    let answer = bound(&chart(), table(), costs, Side::High, facts, certificate);
    assert_eq!(answer, Ok(10 + 100));
}

#[test]
fn six_lists_in_one_buffer() {
    let heading = Heading {
        line: 4,
        sets: 0,
        ways: 2,
        start: 1,
        nodes: 3,
        entry: 0,
    };
    // each list is three of these: kinds 0 0 1, addresses 0 0 1, one arrow out of node 2, to node 1
    let numbers = [0, 0, 1, 0, 0, 0];
    let nodes = NodeLists {
        kinds: &numbers[..3],
        addresses: &numbers[..3],
        sizes: &numbers[3..],
        outs: &numbers[..3],
        firsts: &numbers[..3],
        seconds: &numbers[3..],
    };
    let mut chart = [7; 32];
    assert_eq!(write(heading, &nodes, &mut chart), Ok(32));
    let mut same = Chart::steps(3);
    same.records[2] = Record::read(1).to(1);
    assert_eq!(chart[..], same.bytes());
}
