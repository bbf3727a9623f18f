//! Refusals 2 to 7: every header field at the ends of what rule 1.2 allows, on both sides.

use charts::{Chart, Header};
use reports::each::each;
use reports::hold::{accepts, says};
use second::limits::NODES;

/// One bare step under the sample's header, changed.
fn changed(change: impl Fn(&mut Header)) -> Vec<u8> {
    let mut chart = Chart::steps(1);
    change(&mut chart.header);
    chart.bytes()
}

/// Holds a field to passing at the values allowed, and to one refusal at all others tried.
fn field(refusal: usize, allowed: &[u64], others: &[u64], set: impl Fn(&mut Header, u64) + Sync) {
    each(allowed, |&value| accepts(&changed(|header| set(header, value)), 1, 0));
    each(others, |&value| {
        says(
            &changed(|header| set(header, value)),
            &format!("refused {refusal} at 0"),
        )
    });
}

#[test]
fn edition_1_passes_and_others_give_2() {
    // 1 with each of its bits turned, and the ends
    let others = [0, 2, 3, 5, 9, 17, 33, 65, 129, 255];
    field(2, &[1], &others, |header, value| header.edition = value);
}

#[test]
fn lines_2_to_8_pass_and_others_give_3() {
    let others = [0, 1, 9, 10, 11, 12, 13, 14, 15];
    field(3, &[2, 3, 4, 5, 6, 7, 8], &others, |header, value| header.line = value);
}

#[test]
fn sets_0_to_8_pass_and_others_give_3() {
    let others = [9, 10, 11, 12, 13, 14, 15];
    field(3, &[0, 1, 2, 3, 4, 5, 6, 7, 8], &others, |header, value| {
        header.sets = value
    });
}

#[test]
fn ways_1_to_8_pass_and_0_and_9_on_give_3() {
    let others = [0, 9, 10, 11, 12, 13, 14, 15];
    field(3, &[1, 2, 3, 4, 5, 6, 7, 8], &others, |header, value| {
        header.ways = value
    });
}

#[test]
fn lines_sets_and_ways_at_their_ends_pass_together() {
    for line in [2, 8] {
        for sets in [0, 8] {
            for ways in [1, 8] {
                let shaped = |header: &mut Header| (header.line, header.sets, header.ways) = (line, sets, ways);
                accepts(&changed(shaped), 1, 0);
            }
        }
    }
}

#[test]
fn starts_0_and_1_pass_and_2_and_3_give_4() {
    field(4, &[0, 1], &[2, 3], |header, value| header.start = value);
}

#[test]
fn counts_up_to_the_most_pass_and_others_give_5() {
    each(&[1, 2, 3, 255, 256, 257, 900, NODES - 1, NODES], |&nodes| {
        accepts(&Chart::steps(nodes).bytes(), nodes, 0);
    });
    each(
        &[0, NODES + 1, NODES + 2, 2 * NODES - 1, 2 * NODES, 3 * NODES, 4095],
        |&nodes| {
            says(&Chart::steps(nodes).bytes(), "refused 5 at 0");
        },
    );
}

#[test]
fn an_entry_below_n_passes_and_n_and_above_give_6() {
    for nodes in [1, 2, 3, NODES - 1, NODES] {
        let mut chart = Chart::steps(nodes);
        chart.header.entry = nodes as u64 - 1;
        accepts(&chart.bytes(), nodes, 0);
        for entry in [nodes as u64, nodes as u64 + 1, 4095] {
            chart.header.entry = entry;
            says(&chart.bytes(), "refused 6 at 0");
        }
    }
}

#[test]
fn each_spare_bit_gives_7() {
    let spare: Vec<u64> = (0..10).map(|bit| 1 << bit).collect();
    field(7, &[0], &spare, |header, value| header.spare = value);
    let tail: Vec<u64> = (0..8).map(|bit| 1 << bit).collect();
    field(7, &[0], &tail, |header, value| header.tail = value);
}
