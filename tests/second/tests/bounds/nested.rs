//! A loop within a loop, by hand: how often the inner one turns is said of each turn of the outer one, and of all of them together.

use crate::small::{grounds, COSTS, HIGH, LOW};
use charts::{Chart, Claim, Record};

/// A row, the read of a cell of it that loops on itself, the write of a sum, and the end: nodes 0 to 3. Rows and sums share no set with cells.
fn nested() -> Chart {
    let records = vec![
        Record::read(0x00).to(1).to(3),
        Record::read(0x10).to(1).to(2),
        Record::write(0x20).to(0),
        Record::step(),
    ];
    Chart::of(records).shaped(1, 2, 1)
}

/// Three blocks are loaded once.
const LOADS: u64 = 3 * 9;

fn bound(claim: &Claim) -> u64 {
    claim.bound(&grounds(&nested(), COSTS)).expect("nothing is refused")
}

/// Five rows, and so one visit more of the row's node, behind the last.
fn rows() -> Claim {
    Claim::of(HIGH, 4, 0, 1).with(&[1, 0, 0, 0], 6, 1)
}

#[test]
fn so_many_cells_to_a_row() {
    // eight cells to a row at the most: a cell is paid by its row's sum, which comes to 9 with them
    let claim = rows().with(&[0, 1, -8, 0], 0, 1).with(&[0, 0, 1, 0], 5, 9);
    assert_eq!(bound(&claim), 6 + 5 * 9 + LOADS);
    // the row's own visits go with the sums, but for one: so one fact less does as well
    let claim = Claim {
        multipliers: vec![0, 1, 10],
        potentials: vec![1, 1, 0, 1],
        ..claim
    };
    assert_eq!(bound(&claim), 1 + 5 * 10 + LOADS);
}

#[test]
fn fewer_cells_on_all_rows_together() {
    // a triangle: rows of one to five cells have 15 together, which no number of cells to a row says
    let claim = rows().with(&[0, 1, 0, 0], 15, 1).with(&[0, 0, 1, 0], 5, 1);
    assert_eq!(bound(&claim), 6 + 15 + 5 + LOADS);
    // both are known, and the better one is taken
    let both = claim.with(&[0, 1, -8, 0], 0, 0);
    assert_eq!(bound(&both), 26 + LOADS);
}

#[test]
fn at_least_so_many_cells_to_a_row() {
    // two cells to a row at the least, five rows to the end; nothing is paid for first loads on this side
    let claim = Claim::of(LOW, 4, 0, 1)
        .with(&[0, -1, 2, 0], 0, 1)
        .with(&[-1, 0, 0, 0], -6, 1)
        .with(&[0, 0, -1, 0], -5, 3);
    assert_eq!(bound(&claim), 6 + 5 * 2 + 5);
}

#[test]
fn thirds_of_a_cell() {
    // of three rows one has a cell more: 3 cells are at most 7 rows, and 7 / 3 of a cell are paid with each sum
    let claim = rows().with(&[0, 3, -7, 0], 0, 1).with(&[0, 0, 1, 0], 5, 10);
    let claim = Claim {
        denominator: 3,
        multipliers: vec![3, 1, 3 + 7],
        ..claim
    };
    // 5 rows have 11 cells and two thirds, and so no more than 11
    assert_eq!(bound(&claim), 6 + 11 + 5 + LOADS);
}
