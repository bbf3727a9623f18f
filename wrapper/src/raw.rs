//! The C functions as `include/veilbuzz.h` has them. Nothing checks these declarations against the proved source, so they stand in this
//! one place, and the tests show of each parameter that it is the one that its name says.
//!
//! What a caller has to keep: behind each pointer there are as many elements as the length after it says, aligned for their type and set
//! to something, and where the length is 0 the pointer may be null; a buffer that is written overlaps no other of the same call; while a
//! call runs, nobody else writes to what it was lent, and nobody else reads what it writes. The floating-point settings that the header asks
//! for are those that Rust itself asks of a program.
//!
//! A function that is lent fewer places for its answer than it has numbers, or for a header, a node's fields or the figures, returns 11 and
//! does nothing else.

/// In every answer: the refusal's number, 0 for none; also what the function returns.
pub const NUMBER: usize = 0;
/// In every answer: the node at fault for refusals 9, 10, 16, 17 and 25, else 0.
pub const PLACE: usize = 1;

/// `veilbuzz_read`: B.
pub const READ_BLOCKS: usize = 2;
/// How many numbers its answer has.
pub const READ_LENGTH: usize = 3;

/// `veilbuzz_node`: 1 if there is such a node, 0 if not.
pub const NODE_THERE: usize = 2;
/// How many numbers its answer has.
pub const NODE_LENGTH: usize = 3;

/// `veilbuzz_blocks`: B.
pub const BLOCKS_COUNT: usize = 2;
/// How many numbers its answer has.
pub const BLOCKS_LENGTH: usize = 3;

/// `veilbuzz_write`: the bytes written, 8 + 8 N.
pub const WRITE_BYTES: usize = 2;
/// How many numbers its answer has.
pub const WRITE_LENGTH: usize = 3;

/// `veilbuzz_analyse`: the passes made; after 12 the allowance.
pub const ANALYSE_PASSES: usize = 2;
/// `veilbuzz_analyse`: B; also after 12.
pub const ANALYSE_BLOCKS: usize = 3;
/// How many numbers its answer has.
pub const ANALYSE_LENGTH: usize = 4;

/// `veilbuzz_check`: 1 if the table passes, 0 if not.
pub const CHECK_YES: usize = 2;
/// How many numbers its answer has.
pub const CHECK_LENGTH: usize = 3;

/// `veilbuzz_total`: the low total.
pub const TOTAL_LOW: usize = 2;
/// `veilbuzz_total`: the high total.
pub const TOTAL_HIGH: usize = 3;
/// How many numbers its answer has.
pub const TOTAL_LENGTH: usize = 4;

/// `veilbuzz_deadline`: 1 if the deadline is met, 0 if not.
pub const DEADLINE_MET: usize = 2;
/// How many numbers its answer has.
pub const DEADLINE_LENGTH: usize = 3;

/// The kinds of a deadline, of which the second looks at `latest` and the third at `earliest` too.
pub const DEADLINE_NONE: u64 = 0;
pub const DEADLINE_LATEST: u64 = 1;
pub const DEADLINE_WINDOW: u64 = 2;

/// `veilbuzz_bound`: the bound of the side that was asked for.
pub const BOUND_BOUND: usize = 2;
/// How many numbers its answer has.
pub const BOUND_LENGTH: usize = 3;

/// The sides of a bound.
pub const SIDE_HIGH: u64 = 0;
pub const SIDE_LOW: u64 = 1;

/// How many figures there are: the low one and the high one, in this order.
pub const FIGURES_LENGTH: usize = 2;

/// How many numbers a header has: L, S, A, the start code, N and the entry, in this order.
pub const HEADER_LENGTH: usize = 6;

/// How many fields a node has: kind, address, size code, number of arrows, first and second arrow, in this order.
pub const FIELDS_LENGTH: usize = 6;

extern "C" {
    pub fn veilbuzz_read(
        chart: *const u8,
        chart_length: usize,
        header: *mut u64,
        header_length: usize,
        answer: *mut u64,
        answer_length: usize,
    ) -> u64;

    pub fn veilbuzz_node(
        chart: *const u8,
        chart_length: usize,
        node: usize,
        fields: *mut u64,
        fields_length: usize,
        answer: *mut u64,
        answer_length: usize,
    ) -> u64;

    pub fn veilbuzz_blocks(
        chart: *const u8,
        chart_length: usize,
        blocks: *mut u32,
        blocks_length: usize,
        answer: *mut u64,
        answer_length: usize,
    ) -> u64;

    pub fn veilbuzz_write(
        line: u64,
        sets: u64,
        ways: u64,
        start: u64,
        nodes: u64,
        entry: u64,
        kinds: *const u64,
        kinds_length: usize,
        addresses: *const u64,
        addresses_length: usize,
        sizes: *const u64,
        sizes_length: usize,
        outs: *const u64,
        outs_length: usize,
        firsts: *const u64,
        firsts_length: usize,
        seconds: *const u64,
        seconds_length: usize,
        chart: *mut u8,
        chart_length: usize,
        answer: *mut u64,
        answer_length: usize,
    ) -> u64;

    pub fn veilbuzz_analyse(
        chart: *const u8,
        chart_length: usize,
        allowance: usize,
        blocks: *mut u32,
        blocks_length: usize,
        must: *mut u8,
        must_length: usize,
        may: *mut u8,
        may_length: usize,
        marks: *mut u8,
        marks_length: usize,
        classes: *mut u8,
        classes_length: usize,
        answer: *mut u64,
        answer_length: usize,
    ) -> u64;

    pub fn veilbuzz_check(
        chart: *const u8,
        chart_length: usize,
        must: *const u8,
        must_length: usize,
        may: *const u8,
        may_length: usize,
        marks: *const u8,
        marks_length: usize,
        answer: *mut u64,
        answer_length: usize,
    ) -> u64;

    pub fn veilbuzz_total(
        chart: *const u8,
        chart_length: usize,
        must: *const u8,
        must_length: usize,
        may: *const u8,
        may_length: usize,
        marks: *const u8,
        marks_length: usize,
        hit: u16,
        miss: u16,
        floors: *const u16,
        floors_length: usize,
        ceilings: *const u16,
        ceilings_length: usize,
        answer: *mut u64,
        answer_length: usize,
    ) -> u64;

    pub fn veilbuzz_deadline(
        chart: *const u8,
        chart_length: usize,
        must: *const u8,
        must_length: usize,
        may: *const u8,
        may_length: usize,
        marks: *const u8,
        marks_length: usize,
        hit: u16,
        miss: u16,
        floors: *const u16,
        floors_length: usize,
        ceilings: *const u16,
        ceilings_length: usize,
        period: f64,
        overhead: f64,
        kind: u64,
        earliest: f64,
        latest: f64,
        figures: *mut f64,
        figures_length: usize,
        answer: *mut u64,
        answer_length: usize,
    ) -> u64;

    pub fn veilbuzz_bound(
        chart: *const u8,
        chart_length: usize,
        must: *const u8,
        must_length: usize,
        may: *const u8,
        may_length: usize,
        marks: *const u8,
        marks_length: usize,
        hit: u16,
        miss: u16,
        side: u64,
        coefficients: *const i64,
        coefficients_length: usize,
        limits: *const i64,
        limits_length: usize,
        multipliers: *const i64,
        multipliers_length: usize,
        potentials: *const i64,
        potentials_length: usize,
        denominator: u64,
        answer: *mut u64,
        answer_length: usize,
    ) -> u64;
}
