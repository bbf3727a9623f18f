//! Refusal 9: a record's rules, and the first node that breaks one.

use charts::{Chart, Record};
use reports::each::each;
use reports::hold::{accepts, agrees, says};
use second::limits;

const NODES: usize = 5;

/// Holds a record to breaking the rules wherever it stands in a chart of five nodes.
fn breaks(record: Record) {
    for node in [0, 2, NODES - 1] {
        let mut chart = Chart::steps(NODES);
        chart.records[node] = record;
        says(&chart.bytes(), &format!("refused 9 at {node}"));
    }
}

/// Holds a record to keeping the rules wherever it stands in a chart of five nodes.
fn keeps(record: Record) {
    let blocks = usize::from(record.kind != 0);
    for node in [0, 2, NODES - 1] {
        let mut chart = Chart::steps(NODES);
        chart.records[node] = record;
        accepts(&chart.bytes(), NODES, blocks);
    }
}

#[test]
fn steps_reads_and_writes_pass_and_kind_3_gives_9() {
    keeps(Record::step());
    keeps(Record::read(0));
    keeps(Record::write(0));
    breaks(Record {
        kind: 3,
        ..Record::step()
    });
    breaks(Record {
        kind: 3,
        ..Record::read(16).to(1)
    });
}

#[test]
fn a_bare_step_with_an_address_gives_9() {
    for address in [1, 0x10, 0x8000_0000, 0xFFFF_FFFF] {
        breaks(Record {
            address,
            ..Record::step()
        });
    }
}

#[test]
fn a_reference_to_one_byte_may_have_any_address() {
    for address in [0, 1, 0x8000_0000, 0xFFFF_FFFF] {
        keeps(Record::read(address));
        keeps(Record::write(address));
    }
}

#[test]
fn up_to_two_arrows_pass_and_3_give_9() {
    keeps(Record::step().to(1));
    keeps(Record::step().to(1).to(2));
    breaks(Record {
        outs: 3,
        ..Record::step()
    });
    breaks(Record {
        outs: 3,
        ..Record::step().to(1).to(2)
    });
}

#[test]
fn an_arrow_to_the_last_node_passes_and_to_n_gives_9() {
    let n = NODES as u64;
    keeps(Record::read(0).to(n - 1));
    keeps(Record::read(0).to(n - 1).to(0));
    keeps(Record::read(0).to(0).to(n - 1));
    for target in [n, n + 1, 4095] {
        breaks(Record::read(0).to(target));
        breaks(Record::read(0).to(target).to(0));
        breaks(Record::read(0).to(0).to(target));
    }
}

#[test]
fn arrows_are_held_to_n_in_the_smallest_and_the_largest_chart() {
    for nodes in [1, limits::NODES] {
        let mut chart = Chart::steps(nodes);
        let last = nodes - 1;
        chart.records[last] = Record::step().to(last as u64);
        accepts(&chart.bytes(), nodes, 0);
        chart.records[last] = Record::step().to(nodes as u64);
        says(&chart.bytes(), &format!("refused 9 at {last}"));
    }
}

#[test]
fn an_arrow_that_is_not_used_is_0() {
    breaks(Record {
        first: 1,
        ..Record::step()
    });
    breaks(Record {
        second: 1,
        ..Record::step()
    });
    breaks(Record {
        second: 1,
        ..Record::step().to(1)
    });
    breaks(Record {
        first: 1,
        ..Record::read(0)
    });
    breaks(Record {
        second: 4095,
        ..Record::read(0).to(0)
    });
}

#[test]
fn two_arrows_to_one_node_give_9() {
    for target in 0..NODES as u64 {
        breaks(Record::step().twins(target));
        breaks(Record::read(0).twins(target));
        breaks(Record::write(16).twins(target));
    }
}

#[test]
fn every_bit_of_a_target_counts() {
    let last = limits::NODES as u64 - 1;
    let mut chart = Chart::steps(limits::NODES);
    for bit in (0..12).map(|bit| 1 << bit).filter(|&bit| bit <= last) {
        chart.records[5] = Record::step().to(last).to(last ^ bit);
        accepts(&chart.bytes(), limits::NODES, 0);
        chart.records[5] = Record::step().twins(last ^ bit);
        says(&chart.bytes(), "refused 9 at 5");
    }
    chart.records[5] = Record::step().twins(last);
    says(&chart.bytes(), "refused 9 at 5");
}

#[test]
fn equal_fields_of_which_not_both_are_used_are_no_two_arrows() {
    keeps(Record::step());
    keeps(Record::read(0));
    keeps(Record::step().to(0));
    keeps(Record::read(0).to(0));
    breaks(Record {
        outs: 1,
        ..Record::step().twins(1)
    });
    breaks(Record {
        outs: 0,
        ..Record::step().twins(1)
    });
}

#[test]
fn a_node_may_lead_to_itself_alone_or_beside_another() {
    for own in 0..NODES as u64 {
        let mut targets = vec![vec![own]];
        for other in (0..NODES as u64).filter(|&other| other != own) {
            targets.extend([vec![own, other], vec![other, own]]);
        }
        for targets in targets {
            let mut chart = Chart::steps(NODES);
            chart.records[own as usize] = targets.iter().fold(Record::step(), |record, &target| record.to(target));
            accepts(&chart.bytes(), NODES, 0);
        }
    }
}

#[test]
fn two_nodes_may_lead_to_one() {
    let mut chart = Chart::steps(3);
    chart.records[0] = Record::step().to(1).to(2);
    chart.records[1] = Record::step().to(1).to(2);
    accepts(&chart.bytes(), 3, 0);
}

#[test]
fn two_arrows_to_one_node_are_told_where_they_are_the_first_fault() {
    let fault = Record::step().sized(1);
    let twins = Record::step().twins(1);
    for (records, node) in [
        ([twins, fault, twins], 0),
        ([fault, twins, twins], 0),
        ([Record::step(), twins, fault], 1),
        ([Record::step(), fault, twins], 1),
        ([Record::step().to(1).to(2), Record::read(0).to(0), twins], 2),
    ] {
        says(&Chart::of(records.to_vec()).bytes(), &format!("refused 9 at {node}"));
    }
}

#[test]
fn size_codes_0_to_2_pass_and_others_give_9() {
    for size in 0..=2 {
        keeps(Record::read(0).sized(size).to(1));
        keeps(Record::write(12).sized(size));
    }
    for size in 3..16 {
        breaks(Record::read(0).sized(size).to(1));
        breaks(Record::write(12).sized(size));
    }
}

#[test]
fn a_bare_step_with_a_size_gives_9() {
    for size in 1..16 {
        breaks(Record::step().sized(size));
    }
}

#[test]
fn a_last_byte_with_an_address_passes_and_one_past_the_last_gives_9() {
    for (size, last) in [(0, 0xFFFF_FFFF), (1, 0xFFFF_FFFE), (2, 0xFFFF_FFFC)] {
        for address in 0xFFFF_FFFC..=0xFFFF_FFFF {
            let reference = [Record::read(address), Record::write(address)].map(|record| record.sized(size));
            let hold = if address <= last { keeps } else { breaks };
            reference.into_iter().for_each(hold);
        }
        keeps(Record::read(0).sized(size));
    }
}

#[test]
fn the_place_is_the_first_node_at_fault() {
    let mut chart = Chart::steps(limits::NODES);
    let broken = Record {
        kind: 3,
        ..Record::step()
    };
    for node in [limits::NODES - 1, 256, 255, 3, 1, 0] {
        chart.records[node] = broken;
        says(&chart.bytes(), &format!("refused 9 at {node}"));
    }
}

#[test]
fn nodes_that_no_walk_reaches_keep_the_rules_too() {
    let mut chart = Chart::steps(3);
    chart.records[2].size = 1;
    says(&chart.bytes(), "refused 9 at 2");
}

#[test]
fn the_sample_with_any_one_bit_turned_is_answered_as_expected() {
    let bits: Vec<usize> = (0..8 * Chart::sample().bytes().len()).collect();
    each(&bits, |&bit| {
        let mut bytes = Chart::sample().bytes();
        bytes[bit / 8] ^= 128 >> (bit % 8);
        agrees(&bytes);
    });
}
