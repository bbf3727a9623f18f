//! Figures by their size, and what rounding has done to them, counted.

use crate::sheet::Sheet;
use crate::tally::Tally;
use charts::random_times::{INFINITE, SMALLEST_NORMAL};
use second::rounding::DIGITS;
use second::time::{units, Time};
use second::whole::Whole;
use std::cmp::Ordering;

/// Figures: 0 zero, 1 without all its digits, 2 with them, 3 the largest, 4 infinite.
pub const FIGURE: &str = "a figure";

/// What rounding does to a product, and to a sum: 0 nothing, 1 down, 2 up, 3 and 4 the same at a tie, 5 it is infinite.
pub const PRODUCT: &str = "the rounding of a product";
pub const SUM: &str = "the rounding of a sum";

/// Product and sum rounded together would be another figure.
pub const TOGETHER: &str = "a figure that one rounding would change";

/// Counts the figure that a total comes to.
pub fn count(tally: &mut Tally, total: u64, sheet: Sheet, figure: u64) {
    tally.at(FIGURE, kind(figure));
    let (Some(period), Some(overhead)) = (units(sheet.period), units(sheet.overhead)) else {
        return;
    };
    let product = period.times(total);
    tally.at(PRODUCT, rounding(product));
    if let Time::Finite(rounded) = Time::rounded(product) {
        tally.at(SUM, rounding(rounded.plus(overhead)));
    }
    tally.add_if(Time::rounded(product.plus(overhead)).bits() != figure, TOGETHER);
}

fn kind(figure: u64) -> usize {
    match figure {
        0 => 0,
        1..SMALLEST_NORMAL => 1,
        INFINITE.. => 4,
        _ if figure == INFINITE - 1 => 3,
        _ => 2,
    }
}

/// What rounding does to a number.
fn rounding(exact: Whole) -> usize {
    let Time::Finite(rounded) = Time::rounded(exact) else {
        return 5;
    };
    // a tie has one digit more than a float, and then only zeros
    let cut = exact.length().saturating_sub(DIGITS + 1);
    let digits = exact.without(cut);
    let tie = exact.length() > DIGITS && digits % 2 == 1 && Whole::of(digits, cut) == exact;
    match rounded.cmp(&exact) {
        Ordering::Equal => 0,
        Ordering::Less => 1 + 2 * usize::from(tie),
        Ordering::Greater => 2 + 2 * usize::from(tie),
    }
}
