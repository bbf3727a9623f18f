//! `check`: each part of a table is read where it belongs, each length counts, and nothing is written.

mod lent;

use lent::{chart, Lent, AGES, NODES};
use veilbuzz::{check, Refusal};

/// Whether the settled table still passes after a change, and that it is left as it was lent.
fn after(change: impl Fn(&mut Lent)) -> Result<bool, Refusal> {
    let mut lent = Lent::settled();
    change(&mut lent);
    let before = lent.clone();
    let answer = check(&chart(), lent.table());
    assert_eq!(lent, before);
    answer
}

fn refusal(number: usize, place: usize) -> Result<bool, Refusal> {
    Err(Refusal { number, place })
}

#[test]
fn the_settled_table_passes() {
    assert_eq!(after(|_| ()), Ok(true));
}

#[test]
fn must_may_and_marks_are_each_read() {
    assert_eq!(after(|lent| lent.must[7] = 1), Ok(true));
    assert_eq!(after(|lent| lent.must[6] = 0), Ok(false));
    assert_eq!(after(|lent| lent.may[8] = 1), Ok(true));
    assert_eq!(after(|lent| lent.may[7] = 1), Ok(false));
    assert_eq!(after(|lent| lent.marks[1] = 0), Ok(false));
    assert_eq!(after(|lent| lent.marks[3] = 1), Ok(true));
    assert_eq!(after(|lent| std::mem::swap(&mut lent.must, &mut lent.may)), Ok(false));
}

#[test]
fn each_part_has_its_own_length() {
    assert_eq!(after(|lent| lent.must.truncate(AGES - 1)), refusal(11, 0));
    assert_eq!(after(|lent| lent.may.truncate(AGES - 1)), refusal(11, 0));
    assert_eq!(after(|lent| lent.marks.truncate(NODES - 1)), refusal(11, 0));
    assert_eq!(after(|lent| lent.must.truncate(AGES)), Ok(true));
    assert_eq!(after(|lent| lent.may.truncate(AGES)), Ok(true));
    assert_eq!(after(|lent| lent.marks.truncate(NODES)), Ok(true));
}

#[test]
fn the_chart_counts() {
    let mut bytes = chart();
    assert_eq!(check(&bytes[..7], Lent::settled().table()), refusal(1, 0));
    // size code 3
    bytes[8 + 8 * 3 + 7] |= 3;
    assert_eq!(check(&bytes, Lent::settled().table()), refusal(9, 3));
}
