//! The words of each refusal. Desk, C header and README.md have the same ones, and tests hold them together.

/// Each number, what was found and what to do. Limits stand here as numbers.
const WORDS: [(usize, &str, &str); 21] = [
    (1, "the chart has fewer than 8 bytes", "give the whole file"),
    (
        2,
        "the edition is not 1",
        "the first byte has to be 01; './desk chart' makes a chart of a text",
    ),
    (
        3,
        "there is no such cache: L is not 2 to 8, S not 0 to 8, or A not 1 to 8",
        "look at the cache's shape: a line has 2^L bytes, and there are 2^S sets of A ways",
    ),
    (4, "the start code is neither 0 nor 1", "0 is unknown, 1 is empty"),
    (
        5,
        "the number of nodes, N, is not 1 to 1024",
        "mend the count, or split the chart as docs/REFUSALS.md tells",
    ),
    (
        6,
        "the entry is not below N, the number of nodes",
        "name a node that there is",
    ),
    (7, "a spare bit of the header is set", "clear it"),
    (
        8,
        "the chart is not 8 + 8 N bytes long, or a list of fields not N numbers",
        "cut it, or add the missing records; one number for each node in each list",
    ),
    (
        9,
        "a record breaks its rules",
        "mend that node's record; if both its arrows lead to one node: one arrow, or the other target; \
         if its last byte is past the last address: a smaller size",
    ),
    (
        10,
        "the chart has over 64 blocks",
        "split the chart as docs/REFUSALS.md tells",
    ),
    (
        11,
        "a lent buffer has fewer places than are used",
        "lend N, 2 * N, B, N * B or 8 + 8 * N elements, as the function says; \
         in C also as many as its answer, header, fields or figures have",
    ),
    (
        12,
        "the passes that were allowed are too few",
        "allow 1049601 passes, which are enough for every chart",
    ),
    (13, "the table does not pass", "lend the one that the analysis wrote for this chart"),
    (14, "there are not just N floors, or not just N ceilings", "one number for each node"),
    (
        15,
        "the miss cost is below the hit cost",
        "swap them, if they were swapped",
    ),
    (16, "a floor is above its ceiling", "mend that node's two bounds"),
    (
        17,
        "a floor above 0 stands at a node without a mark",
        "no walk comes there: make it 0",
    ),
    (
        18,
        "the times are impossible: a period of 0, a time below 0 or not finite, a window that ends before it begins, \
         or no such kind of deadline",
        "give times in microseconds, of 8 MHz a period of 0.125; swap the window's limits, if they were swapped",
    ),
    (
        23,
        "a list of the facts or of the certificate has the wrong length",
        "of F limits: F * N coefficients, F multipliers and N potentials",
    ),
    (
        24,
        "a number of the facts or of the certificate is out of its range, or there is no such side",
        "a denominator of 1 to 2^32; coefficients and limits of -2^24 to 2^24; no multiplier below 0, and all together no more than 2^36; \
         potentials of -2^60 to 2^60",
    ),
    (
        25,
        "the certificate does not hold at that node: its own potential, if it is the entry, or that of an arrow's target is too small",
        "make the certificate for this chart, these costs, these facts and this side",
    ),
];

/// What was found, and what to do; `None` for a number that nothing is refused with.
pub fn words(number: usize) -> Option<(&'static str, &'static str)> {
    let row = WORDS.iter().find(|(row, ..)| *row == number);
    row.map(|(_, found, mend)| (*found, *mend))
}
