//! What charts are written from: what bytes hold, of whole charts and of damaged ones, and numbers that no field can hold.

use crate::inputs;
use charts::random::Random;
use second::chart::records;
use second::fields::Fields;

/// A header's six numbers and six lists, in the order of rule 15.3.
pub struct Given {
    pub header: [u64; 6],
    pub lists: [Vec<u64>; 6],
}

/// How many bits each one's field has.
pub const HEADER_WIDTHS: [u32; 6] = [4, 4, 4, 2, 12, 12];
pub const LIST_WIDTHS: [u32; 6] = [2, 32, 4, 2, 12, 12];

/// Half of them are damaged, and once in four times one number is as wide as its field or wider.
pub fn given(random: &mut Random) -> Given {
    let bytes = inputs::bytes(random, 2);
    let mut given = match bytes.first_chunk() {
        Some(&first) => of_chart(first, &bytes),
        None => given(random),
    };
    if random.once_in(4) {
        widen(random, &mut given);
    }
    given
}

/// What the bytes hold, whether or not they are a chart.
fn of_chart(first: [u8; 8], bytes: &[u8]) -> Given {
    let mut fields = Fields::of(first);
    let [_, line, sets, ways, start, _, nodes, entry] =
        [8, 4, 4, 4, 2, 10, 12, 12].map(|width| fields.take(width).into());
    let records: Vec<[u64; 6]> = records(bytes).map(|record| record.numbers()).collect();
    Given {
        header: [line, sets, ways, start, nodes, entry],
        lists: std::array::from_fn(|list| records.iter().map(|numbers| numbers[list]).collect()),
    }
}

fn widen(random: &mut Random, given: &mut Given) {
    let field = random.below(6) as usize;
    let list = &mut given.lists[field];
    let (number, width) = if list.is_empty() || random.once_in(2) {
        (&mut given.header[field], HEADER_WIDTHS[field])
    } else {
        let node = random.below(list.len() as u64) as usize;
        (&mut list[node], LIST_WIDTHS[field])
    };
    // the highest that its field can hold, and one more; what would be the same number if it were cut; the highest of all
    *number = match random.below(6) {
        0 => (1 << width) - 1,
        1 => 1 << width,
        2 => *number | 1 << width,
        3 => *number | 1 << random.within(u64::from(width), 63),
        4 => u64::MAX - random.below(4),
        _ => random.below(1 << 48) << 16 | random.below(1 << 16),
    };
}
