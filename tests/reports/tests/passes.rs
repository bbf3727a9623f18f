//! The number of passes: few, many, and as many as the largest charts take.

use charts::{Chart, Record};
use reports::each::each;
use reports::hold::{agrees, says};
use second::limits::{BLOCKS, NODES};

/// So many reads of the most blocks in turn, each leading to the node below; the last is the entry.
fn backward(nodes: usize) -> Chart {
    let addresses: Vec<u64> = (0..nodes as u64).map(|node| node % BLOCKS as u64 * 16).collect();
    let mut chart = Chart::reads(&addresses);
    for node in 1..nodes {
        chart.records[node] = chart.records[node].to(node as u64 - 1);
    }
    chart.header.entry = nodes as u64 - 1;
    chart
}

#[test]
fn one_node_takes_one_pass() {
    says(&Chart::steps(1).bytes(), "nodes 1 blocks 0 passes 1\n0 none none");
}

#[test]
fn a_change_goes_backward_one_node_in_a_pass() {
    let mut chart = Chart::of(vec![Record::step(), Record::step().to(0), Record::step().to(1)]);
    chart.header.entry = 2;
    says(
        &chart.bytes(),
        "nodes 3 blocks 0 passes 3\n0 none none\n1 none none\n2 none none",
    );
}

#[test]
fn backward_chains_of_any_length_agree() {
    each(&[1, 2, BLOCKS - 1, BLOCKS, BLOCKS + 1, NODES - 1, NODES], |&nodes| {
        agrees(&backward(nodes).shaped(0, 8, 1).bytes());
        agrees(&backward(nodes).shaped(2, 4, 0).bytes());
    });
}

#[test]
fn a_backward_ring_agrees() {
    each(&[(0, 8), (2, 8), (6, 1)], |&(sets, ways)| {
        let mut chart = backward(NODES).shaped(sets, ways, 1);
        chart.records[0] = chart.records[0].to(NODES as u64 - 1);
        chart.records[NODES / 2] = chart.records[NODES / 2].to(3 * NODES as u64 / 4);
        agrees(&chart.bytes());
    });
}
