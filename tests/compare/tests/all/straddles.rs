//! References over the end of a line, with every line, every number of sets, every size and each of the line's last bytes.

use charts::{Chart, Record};
use compare::ask::READ;
use compare::group::Group;
use compare::straddles::{BOTH, LIKE, SETS};

/// Reads in a row: of the two blocks at this end of a line, of each alone, of the two again, and of the next two.
fn around(end: u64, size: u64, first: u64, line: u64) -> Chart {
    let bytes = |end: u64| Record::read(end - first).sized(size);
    let records = vec![
        bytes(end),
        Record::read(end - 1),
        Record::write(end),
        bytes(end),
        bytes(end + (1 << line)),
        bytes(end),
    ];
    let mut chart = Chart::of(records).in_a_row();
    chart.header.line = line;
    chart
}

#[test]
fn every_end_of_a_line() {
    let mut group = Group::of("ends of lines");
    for (line, sets) in (2..=8).flat_map(|line| (0..=8).map(move |sets| (line, sets))) {
        let (line_size, round) = (1_u64 << line, 1_u64 << (line + sets));
        // within a round of sets, from the last to the first, and at the end of the memory
        for end in [line_size, round, 3 * round, 1 << 31, (1 << 32) - line_size - line_size] {
            for (size, first) in [(1, 1), (2, 1), (2, 2), (2, 3), (0, 1), (1, 2), (2, 4)] {
                for (ways, start) in [(1, 0), (1, 1), (2, 0), (2, 1), (8, 1)] {
                    group.trial(&around(end, size, first, line).shaped(sets, ways, start).bytes());
                }
            }
        }
    }
    let tally = group.end();
    assert_eq!(tally.count(READ, 0), 7 * 9 * 5 * 7 * 5);
    tally.expect_each(SETS, 0..=2, 500);
    tally.expect_each(BOTH, 0..=1, 1_000);
    tally.expect(LIKE[0], 100);
}

/// Two nodes that lead to each other and to themselves: all that a loop can make of two touches, and of one.
#[test]
fn loops_of_two_nodes() {
    let mut group = Group::of("loops of two touches");
    let references = [0x00, 0x0E, 0x10, 0x1E, 0x2E].map(|address| Record::read(address).sized(2));
    let pairs = references.iter().flat_map(|&one| references.map(|two| (one, two)));
    for (one, two) in pairs {
        for (sets, ways) in (0..=2).flat_map(|sets| (1..=4).map(move |ways| (sets, ways))) {
            for start in 0..=1 {
                let records = vec![one.to(0).to(1), two.to(0).to(1)];
                group.trial(&Chart::of(records).shaped(sets, ways, start).bytes());
            }
        }
    }
    let tally = group.end();
    assert_eq!(tally.count(READ, 0), 25 * 12 * 2);
    tally.expect_each(SETS, 0..=2, 50);
}
