//! No promise speaks of the stack, so it is tried: the largest charts in 1 MiB of it.

use charts::slowest::slowest;
use charts::{Chart, Record};
use reports::hold::same;
use reports::program::{answer, command_after};
use second::limits::{BLOCKS, NODES};
use second::report::INPUT;

/// Sets the stack of the program.
const ONE_MIB: &str = "ulimit -s 1024";

#[test]
fn a_stack_of_1_mib_is_enough() {
    let addresses: Vec<u64> = (0..NODES as u64).map(|node| node % BLOCKS as u64 * 16).collect();
    let mut looping = Chart::straight(&addresses).shaped(0, 8, 0);
    looping.records[NODES - 1] = Record::read(addresses[NODES - 1]).to(0).to(NODES as u64 / 2);
    let mut backward = Chart::reads(&addresses).shaped(3, 8, 1);
    for node in 1..NODES {
        backward.records[node] = backward.records[node].to(node as u64 - 1);
    }
    backward.header.entry = NODES as u64 - 1;
    let over_ends = addresses
        .iter()
        .map(|address| Record::read(address % (16 * (BLOCKS as u64 - 1)) + 15).sized(1));
    let straddling = Chart::of(over_ends.collect()).in_a_row().shaped(0, 8, 0);
    for chart in [looping, backward, straddling, slowest(NODES)] {
        let report = answer(command_after(ONE_MIB), &chart.bytes());
        same(&report, &chart.bytes());
        let first = format!("nodes {NODES} blocks {BLOCKS} passes ");
        assert!(report.starts_with(&first), "not the largest chart, but {report}");
    }
    for input in [vec![255; INPUT + 1_000], Vec::new()] {
        same(&answer(command_after(ONE_MIB), &input), &input);
    }
}
