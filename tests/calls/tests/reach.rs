//! So that a run is no idle one: what the charts of the gate's shortest file reach and touch.

use calls::{Case, Function, SEED};
use charts::random_edges::EDGES;
use second::chart::Chart;
use second::class::Class;
use second::kept::Kept;
use second::lending::Lending;
use second::lent::Lent;
use second::limits::{BLOCKS, TOUCHES};

fn cases() -> impl Iterator<Item = Case> {
    (0..60_000).map(|number| calls::case(SEED, number))
}

#[test]
fn most_nodes_of_what_is_analysed_are_reached() {
    let (mut nodes, mut marked) = (0, 0);
    for case in cases().filter(|case| case.function == Function::Analyse && case.returned == 0) {
        let marks = case.buffers[4].elements::<u8>();
        let used = &marks[..case.buffers[4].needed];
        nodes += used.len();
        marked += used.iter().filter(|&&mark| mark == 1).count();
    }
    assert!(10 * marked >= 7 * nodes, "{marked} of {nodes} nodes are reached");
}

#[test]
fn touches_of_what_is_analysed_have_every_class() {
    let mut times = [[0; 6]; TOUCHES];
    for case in cases().filter(|case| case.function == Function::Analyse && case.returned == 0) {
        let classes = case.buffers[5].elements::<u8>();
        for both in classes[..case.buffers[5].needed].chunks(TOUCHES) {
            for (times, &class) in times.iter_mut().zip(both) {
                times[usize::from(class)] += 1;
            }
        }
    }
    assert!(times.as_flattened().iter().all(|&times| times >= 100), "{times:?}");
}

/// Whether the table of a call calls a touch kept where it is paid for, at a node that a walk reaches, and at one that it marks and no walk
/// reaches. The totals and the deadline pay at a ceiling above 0.
fn keeps(case: &Case) -> [bool; 2] {
    let bytes = case.buffers[0].elements::<u8>();
    let chart = Chart::read(&bytes).expect("the chart is accepted");
    let own = Lending::analysed(&bytes, &chart);
    let [must, may, marks] = [1, 2, 3].map(|place: usize| case.buffers[place].elements::<u8>());
    let lent = Lent {
        must: &must,
        may: &may,
        marks: &marks,
    };
    let (kept, ceilings) = (Kept::of(&chart), case.buffers[5].elements::<u16>());
    let mut keeps = [false; 2];
    for node in (0..chart.nodes.len()).filter(|&node| case.function == Function::Bound || ceilings[node] > 0) {
        keeps[usize::from(own.marks[node] == 0)] |= Class::of(&chart, lent, &kept, node).contains(&Class::Kept);
    }
    keeps
}

/// How many accepted calls of a function keep a touch where a walk comes, and where none does.
fn kept_times(function: Function) -> [usize; 2] {
    let mut times = [0; 2];
    for case in cases().filter(|case| case.function == function && case.returned == 0) {
        for (times, keeps) in times.iter_mut().zip(keeps(&case)) {
            *times += usize::from(keeps);
        }
    }
    times
}

#[test]
fn totals_deadlines_and_bounds_pay_for_kept_touches_also_where_no_walk_comes() {
    let [totals, deadlines, bounds] = [Function::Total, Function::Deadline, Function::Bound].map(kept_times);
    assert!(totals[0] >= 500 && totals[1] >= 20, "{totals:?}");
    assert!(deadlines[0] >= 500 && deadlines[1] >= 10, "{deadlines:?}");
    assert!(bounds[0] >= 500 && bounds[1] >= 10, "{bounds:?}");
}

#[test]
fn blocks_are_as_many_as_stand_at_each_edge() {
    let mut times = [0; BLOCKS + 1];
    for case in cases().filter(|case| case.function != Function::Write) {
        if let Ok(chart) = Chart::read(&case.buffers[0].elements::<u8>()) {
            times[chart.blocks.len()] += 1;
        }
    }
    for edge in EDGES.map(|edge| edge as usize) {
        let enough = edge > BLOCKS || times[edge] >= 20;
        assert!(enough, "charts have {edge} blocks only {} times", times[edge]);
    }
}
