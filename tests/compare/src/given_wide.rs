//! Numbers at the width of their field and past it, and lists of other lengths than N.

use crate::given::{Given, HEADER_WIDTHS, LIST_WIDTHS};
use crate::tally::Tally;
use charts::random::Random;

/// How wide numbers are counted, by their kind.
pub const WIDE_IN_HEADER: [&str; 6] = ["wide L", "wide S", "wide A", "wide start code", "wide N", "wide entry"];
pub const WIDE_IN_LIST: [&str; 6] = [
    "wide kind",
    "wide address",
    "wide size code",
    "wide number of arrows",
    "wide first arrow",
    "wide second arrow",
];
pub const WIDES: usize = 8;

/// In the place of a number: the highest that its field can hold, one more; the same number with the first bit past the field set, the
/// first past 32 or the highest; the first that 32 bits do not hold, the highest of all, any.
fn wide(random: &mut Random, kind: usize, number: u64, width: u32) -> u64 {
    [
        (1 << width) - 1,
        1 << width,
        number | 1 << width,
        number | 1 << 32,
        number | 1 << 63,
        1 << 32,
        u64::MAX,
        random.below(1 << 32) << 32 | random.below(1 << 32),
    ][kind]
}

/// Makes one of the header's numbers wide, or one of a list's, if it has any.
pub fn widen(random: &mut Random, tally: &mut Tally, given: &mut Given) {
    let kind = random.below(WIDES as u64) as usize;
    let place = random.below(6) as usize;
    if random.once_in(2) {
        let number = &mut given.header[place];
        *number = wide(random, kind, *number, HEADER_WIDTHS[place]);
        tally.at(WIDE_IN_HEADER[place], kind);
        return;
    }
    let nodes = given.lists[place].len() as u64;
    if nodes > 0 {
        let number = &mut given.lists[place][random.below(nodes) as usize];
        *number = wide(random, kind, *number, LIST_WIDTHS[place]);
        tally.at(WIDE_IN_LIST[place], kind);
    }
}

/// How other lengths of one list alone are counted, and of all six: 0 none, 1 one fewer, 2 one more, 3 many more.
pub const LENGTH_OF_ONE: [&str; 6] = [
    "other length of kinds",
    "other length of addresses",
    "other length of size codes",
    "other length of numbers of arrows",
    "other length of first arrows",
    "other length of second arrows",
];
pub const LENGTH_OF_ALL: &str = "other length of all six lists";
pub const LENGTHS: usize = 4;

/// Gives one list another length, or all six.
pub fn lengthen(random: &mut Random, tally: &mut Tally, given: &mut Given) {
    let kind = random.below(LENGTHS as u64) as usize;
    let more = random.within(2, 90) as usize;
    let resize = |list: &mut Vec<u64>| {
        let length = [0, list.len().saturating_sub(1), list.len() + 1, list.len() + more][kind];
        list.resize(length, 0);
    };
    if random.once_in(3) {
        given.lists.iter_mut().for_each(resize);
        tally.at(LENGTH_OF_ALL, kind);
    } else {
        let list = random.below(6) as usize;
        resize(&mut given.lists[list]);
        tally.at(LENGTH_OF_ONE[list], kind);
    }
}
