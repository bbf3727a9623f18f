//! A chart taken apart and put together, in buffers of its own.

use crate::{node, read, write, Fields, Header, Heading, NodeLists, Refusal, LONGEST};

/// What a chart's header and each of its nodes say, or one of refusals 1 to 10. The chart is read once for each node.
pub fn fields_of(chart: &[u8]) -> Result<(Header, Vec<Fields>), Refusal> {
    let header = read(chart)?;
    let fields = |n| Ok(node(chart, n)?.expect("there is a node of each number below N"));
    let nodes: Result<Vec<Fields>, Refusal> = (0..header.nodes).map(fields).collect();
    Ok((header, nodes?))
}

/// The chart of these fields, or one of refusals 3 to 6 and 8 to 10; 8 is that there are not as many nodes as the heading says.
pub fn chart_of(heading: Heading, nodes: &[Fields]) -> Result<Vec<u8>, Refusal> {
    let list = |field: fn(&Fields) -> u64| -> Vec<u64> { nodes.iter().map(field).collect() };
    let lists = NodeLists {
        kinds: &list(|node| node.kind),
        addresses: &list(|node| node.address),
        sizes: &list(|node| node.size),
        outs: &list(|node| node.outs),
        firsts: &list(|node| node.first),
        seconds: &list(|node| node.second),
    };
    let mut chart = vec![0; LONGEST];
    let length = write(heading, &lists, &mut chart)?;
    chart.truncate(length);
    Ok(chart)
}
