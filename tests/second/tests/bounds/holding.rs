//! Where a certificate holds and where it does not (rule 18.4): the entry, each arrow, and which node is named.

use crate::small::{after, alone, analysed, grounds, ten_turns, turning, COSTS, HIGH, LOW};
use charts::{Chart, Claim, Record};
use second::refusal::Refusal;

/// A read that forks to two others, which join in a step: nodes 0 to 3, all misses but none twice.
fn diamond() -> Chart {
    Chart::of(vec![
        Record::read(0x00).to(1).to(2),
        Record::read(0x10).to(3),
        Record::read(0x20).to(3),
        Record::step(),
    ])
}

/// Longest walks of it, with 10 for each miss.
fn longest() -> Claim {
    Claim {
        potentials: vec![10, 20, 20, 20],
        ..Claim::of(HIGH, 4, 0, 1)
    }
}

fn of_diamond(change: impl FnOnce(&mut Claim)) -> Result<u64, Refusal> {
    let mut claim = longest();
    change(&mut claim);
    claim.bound(&grounds(&diamond(), COSTS))
}

#[test]
fn the_entry_has_to_have_its_own_visit() {
    assert_eq!(of_diamond(|_| ()), Ok(20));
    assert_eq!(of_diamond(|claim| claim.potentials[0] = 9), Err(Refusal::at(25, 0)));
    let below = of_diamond(|claim| claim.potentials = vec![9, 19, 19, 19]);
    assert_eq!(below, Err(Refusal::at(25, 0)));
}

#[test]
fn the_node_is_named_that_an_arrow_leaves() {
    for (node, at) in [(1, 0), (2, 0), (3, 1)] {
        let less = of_diamond(|claim| claim.potentials[node] -= 1);
        assert_eq!(less, Err(Refusal::at(25, at)), "node {node}");
    }
    // the first of those at which it does not hold, though the entry holds
    let more = of_diamond(|claim| claim.potentials[2] += 1);
    assert_eq!(more, Err(Refusal::at(25, 2)));
    let both = of_diamond(|claim| claim.potentials[3] = 0);
    assert_eq!(both, Err(Refusal::at(25, 1)));
}

#[test]
fn the_entry_need_not_be_node_0() {
    let mut chart = Chart::of(vec![Record::read(0x00), Record::read(0x10).to(0)]);
    chart.header.entry = 1;
    let claim = |potentials: [i64; 2]| {
        let claim = Claim {
            potentials: potentials.to_vec(),
            ..Claim::of(HIGH, 2, 0, 1)
        };
        claim.bound(&grounds(&chart, COSTS))
    };
    assert_eq!(claim([20, 10]), Ok(20));
    assert_eq!(claim([19, 10]), Err(Refusal::at(25, 1)));
    assert_eq!(claim([20, 9]), Err(Refusal::at(25, 1)));
    assert_eq!(claim([0, 10]), Err(Refusal::at(25, 1)));
}

#[test]
fn no_potentials_hold_on_a_ring_that_is_left_with_a_cost() {
    assert_eq!(after(|_| ()), Ok(10 + 9));
    assert_eq!(after(|claim| claim.multipliers[0] = 0), Err(Refusal::at(25, 0)));
    let other = after(|claim| {
        claim.multipliers[0] = 0;
        claim.potentials = vec![1 << 60, 1 << 60, 0];
    });
    assert_eq!(other, Err(Refusal::at(25, 0)));
    // with more than enough it holds, and the bound is no better
    assert_eq!(after(|claim| claim.multipliers[0] = 2), Ok(20 + 9));
}

#[test]
fn what_stands_at_an_unmarked_node_does_not_matter() {
    // node 2 is not reached, leads to node 0, and may have any potential: as target there is none, and Z passes it over
    for potential in [1 << 60, 1, 0, -(1 << 60)] {
        assert_eq!(after(|claim| claim.potentials[2] = potential), Ok(10 + 9));
    }
    // and any coefficient
    assert_eq!(after(|claim| claim.coefficients[2] = -(1 << 24)), Ok(10 + 9));
    // if the table marks it, it has its share: Z goes by it, and its arrow has to hold
    let mut loosest = analysed(&turning());
    loosest.marks.fill(1);
    loosest.must.fill(2);
    loosest.may.fill(0);
    let grounds = loosest.grounds(&turning().bytes(), COSTS).expect("the table passes");
    let marked = |potential| {
        let mut claim = ten_turns();
        claim.potentials[2] = potential;
        claim.bound(&grounds)
    };
    assert_eq!(marked(0), Ok(10 + 18));
    assert_eq!(marked(-5), Ok(10 + 18));
    assert_eq!(marked(1), Err(Refusal::at(25, 2)));
}

#[test]
fn without_a_fact_the_low_side_has_the_first_visit() {
    let chart = diamond();
    let grounds = grounds(&chart, COSTS);
    let claim = |potentials: [i64; 4]| {
        let claim = Claim {
            potentials: potentials.to_vec(),
            ..Claim::of(LOW, 4, 0, 1)
        };
        claim.bound(&grounds)
    };
    // a walk may end at once
    assert_eq!(claim([-10, -20, -20, -20]), Ok(10));
    assert_eq!(claim([-10, -10, -10, -10]), Ok(10));
    assert_eq!(claim([-11, -21, -21, -21]), Err(Refusal::at(25, 0)));
    // that it comes to the end is a fact, and then it pays for a side
    let comes = Claim::of(LOW, 4, 0, 1).with(&alone(4, 3, -1), -1, 20);
    let comes = Claim {
        potentials: vec![-10, -20, -20, 0],
        ..comes
    };
    assert_eq!(comes.bound(&grounds), Ok(20));
}

#[test]
fn coefficients_stand_fact_after_fact() {
    // two facts of three nodes that are no fact of two the other way round
    let claim = Claim::of(HIGH, 3, 0, 1).with(&[1, 0, 0], 10, 1).with(&[0, 5, 0], 3, 0);
    assert_eq!(claim.bound(&grounds(&turning(), COSTS)), Ok(10 + 9));
    let mixed = Claim {
        coefficients: vec![1, 0, 0, 5, 0, 0],
        ..claim
    };
    assert_eq!(mixed.bound(&grounds(&turning(), COSTS)), Ok(10 + 9));
    let other = Claim {
        coefficients: vec![0, 1, 0, 5, 0, 0],
        ..mixed
    };
    assert_eq!(other.bound(&grounds(&turning(), COSTS)), Err(Refusal::at(25, 0)));
}
