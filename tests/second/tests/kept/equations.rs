//! When a table of one block passes, and when one has at least what another has (rule 16.6).

use second::chart::Chart;
use second::since::Since;

/// What each node has of one block, or nothing.
pub type Nodes = [Option<Since>];

/// Whether a node has at least so much: touched if that is, and no smaller set.
pub fn has(node: Option<Since>, least: Since) -> bool {
    node.is_some_and(|since| since.touched >= least.touched && since.others & least.others == least.others)
}

/// Whether each node has at least what another table has there.
pub fn at_least(nodes: &Nodes, other: &Nodes) -> bool {
    let mut both = nodes.iter().zip(other);
    both.all(|(&node, other)| other.is_none_or(|least| has(node, least)))
}

/// Whether a table passes: the entry has at least the start, and each target of an arrow what its source makes of what it has.
pub fn passes(chart: &Chart, block: usize, nodes: &Nodes) -> bool {
    let leads = |number: usize, since: Since| {
        let node = &chart.nodes[number];
        let after = since.after(chart, block, node);
        node.arrows.targets().iter().all(|&target| has(nodes[target], after))
    };
    let mut numbers = 0..nodes.len();
    has(nodes[chart.header.entry], Since::default())
        && numbers.all(|number| nodes[number].is_none_or(|since| leads(number, since)))
}

/// All that is just below what a node has: nothing, untouched, one member less.
pub fn lower(since: Since) -> Vec<Option<Since>> {
    let mut lower = vec![None];
    if since.touched {
        lower.push(Some(Since::default()));
    }
    let members = (0..64).filter(|place| since.others >> place & 1 == 1);
    lower.extend(members.map(|place| {
        Some(Since {
            others: since.others & !(1 << place),
            ..since
        })
    }));
    lower
}
