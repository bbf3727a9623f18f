//! `bound`: each number counts where its name says, each side is shown by its own certificate, refusals 23 to 25 come last and in this order, and
//! nothing is written.

mod lent;
mod question;

use charts::{Chart, Record};
use lent::NODES;
use question::{Question, FAULTS, HIGH, LOW};
use veilbuzz::{bound, Analysis, Certificate, Costs, Facts, Refusal, Side};

/// What shows a bound for one side.
#[derive(Clone, Debug, PartialEq)]
struct Shown {
    side: Side,
    coefficients: Vec<i64>,
    limits: Vec<i64>,
    multipliers: Vec<i64>,
    potentials: Vec<i64>,
    denominator: u64,
}

impl Shown {
    /// Two facts of four nodes. One visit of a marked node counts 3, so twice 3; of which is left 6 - 1, 6 - 4 and 6 - 13.
    fn high() -> Shown {
        Shown {
            side: Side::High,
            coefficients: vec![1, 2, 3, 5, -1, 0, 7, 0],
            limits: vec![40, -8],
            multipliers: vec![2, 1],
            potentials: vec![5, 7, 0, 900],
            denominator: 2,
        }
    }

    /// The same below 0: of minus 6 is left -6 + 2, -6 + 5 and -6 + 6.
    fn low() -> Shown {
        Shown {
            side: Side::Low,
            coefficients: vec![-1, -2, -3, 4, 0, -1, 0, 5],
            limits: vec![-20, -7],
            multipliers: vec![2, 1],
            potentials: vec![-4, -5, -5, 900],
            denominator: 2,
        }
    }

    fn both() -> [Shown; 2] {
        [Shown::high(), Shown::low()]
    }

    /// What stands for floors or ceilings: of each node a fact of its own, and what one visit counts as its multiplier.
    fn of_visits(side: Side, visits: &[u16], costs: &[i64]) -> Shown {
        let (nodes, sign) = (visits.len(), if side == Side::High { 1 } else { -1 });
        let coefficient = |place: usize| if place / nodes == place % nodes { sign } else { 0 };
        Shown {
            side,
            coefficients: (0..nodes * nodes).map(coefficient).collect(),
            limits: visits.iter().map(|&visits| sign * i64::from(visits)).collect(),
            multipliers: costs.to_vec(),
            potentials: vec![0; nodes],
            denominator: 1,
        }
    }

    fn facts(&self) -> Facts<'_> {
        Facts {
            coefficients: &self.coefficients,
            limits: &self.limits,
        }
    }

    fn certificate(&self) -> Certificate<'_> {
        Certificate {
            multipliers: &self.multipliers,
            potentials: &self.potentials,
            denominator: self.denominator,
        }
    }

    fn asked(&self, question: &Question) -> Result<u64, Refusal> {
        let (chart, table) = (&question.chart, question.lent.table());
        let (facts, certificate) = (self.facts(), self.certificate());
        bound(chart, table, question.costs, self.side, facts, certificate)
    }

    /// Of another chart by its tightest table, at 1 for a hit and 10 for a miss.
    fn of(&self, chart: &Chart) -> Result<u64, Refusal> {
        let chart = chart.bytes();
        let analysis = Analysis::of(&chart).expect("the chart is accepted");
        let costs = Costs { hit: 1, miss: 10 };
        let (facts, certificate) = (self.facts(), self.certificate());
        bound(&chart, analysis.table(), costs, self.side, facts, certificate)
    }
}

/// What a bound is after a change, and that all is left as it was lent.
fn after(shown: &Shown, change: impl Fn(&mut Question, &mut Shown)) -> Result<u64, Refusal> {
    let (mut question, mut shown) = (Question::fresh(), shown.clone());
    change(&mut question, &mut shown);
    let before = (question.clone(), shown.clone());
    let answer = shown.asked(&question);
    assert_eq!((question, shown), before);
    answer
}

fn refusal(number: usize, place: usize) -> Result<u64, Refusal> {
    Err(Refusal { number, place })
}

/// Two blocks are kept.
const LOADS: u64 = 2 * (1000 - 3);

#[test]
fn the_bounds_are_those_that_the_certificates_show() {
    // half of 7 + 2 * 40 - 8, and half of 4 + 2 * 20 + 7
    assert_eq!(after(&Shown::high(), |_, _| ()), Ok(79 / 2 + LOADS));
    assert_eq!(after(&Shown::low(), |_, _| ()), Ok(51_u64.div_ceil(2)));
}

#[test]
fn a_high_bound_is_rounded_down_and_a_low_one_up() {
    for (more, high, low) in [(-1, 39, 26), (0, 39, 26), (1, 40, 25), (2, 40, 25)] {
        let change = |_: &mut Question, shown: &mut Shown| shown.limits[1] += more;
        assert_eq!(after(&Shown::high(), change), Ok(high + LOADS), "{more}");
        assert_eq!(after(&Shown::low(), change), Ok(low), "{more}");
    }
}

#[test]
fn no_bound_is_below_0() {
    for (limit, high) in [(-86, 0), (-87, 0), (-88, 0), (-89, 0), (-1000, 0), (-85, 1)] {
        let change = |_: &mut Question, shown: &mut Shown| shown.limits[1] = limit;
        assert_eq!(after(&Shown::high(), change), Ok(high + LOADS), "{limit}");
    }
    for (limit, low) in [(43, 1), (44, 0), (45, 0), (46, 0), (1000, 0)] {
        let change = |_: &mut Question, shown: &mut Shown| shown.limits[1] = limit;
        assert_eq!(after(&Shown::low(), change), Ok(low), "{limit}");
    }
}

#[test]
fn without_facts_potentials_alone_show_a_bound() {
    // a walk of three nodes that never come twice
    let bare = |side, potentials: [i64; NODES]| Shown {
        side,
        coefficients: vec![],
        limits: vec![],
        multipliers: vec![],
        potentials: potentials.to_vec(),
        denominator: 1,
    };
    assert_eq!(after(&bare(Side::High, [3, 6, 9, 0]), |_, _| ()), Ok(9 + LOADS));
    // a walk comes to the entry, and may end there
    assert_eq!(after(&bare(Side::Low, [-3, -6, -9, 0]), |_, _| ()), Ok(3));
}

#[test]
fn floors_and_ceilings_as_facts_give_the_totals() {
    let Question { floors, ceilings, .. } = Question::fresh();
    let costs = [3, 3, 3, 0];
    let high = Shown::of_visits(Side::High, &ceilings, &costs);
    assert_eq!(after(&high, |_, _| ()), Ok(HIGH));
    let low = Shown::of_visits(Side::Low, &floors, &costs);
    assert_eq!(after(&low, |_, _| ()), Ok(LOW));
}

#[test]
fn a_block_is_not_loaded_where_a_fact_rules_the_node_out() {
    let ceilings = Shown::of_visits(Side::High, &[0, 20, 60_000, 9], &[3, 3, 3, 0]);
    assert_eq!(after(&ceilings, |_, _| ()), Ok(3 * 60_020 + 997));
    // a coefficient below 0 elsewhere, and it does not
    let change = |_: &mut Question, shown: &mut Shown| shown.coefficients[3] = -1;
    assert_eq!(after(&ceilings, change), Ok(3 * 60_020 + 2 * 997));
    // a limit below 0 does, and one of 1 does not
    for (limit, bound) in [(-1, 3 * 60_019 + 997), (1, 3 * 60_021 + 2 * 997)] {
        let change = |_: &mut Question, shown: &mut Shown| shown.limits[0] = limit;
        assert_eq!(after(&ceilings, change), Ok(bound));
    }
}

#[test]
fn a_visit_counts_what_it_does_in_the_total_of_its_side() {
    // a ring of two reads in a set of one way, and a way past the second: the first is unsure, the second misses
    let records = vec![
        Record::read(0x00).to(1).to(2),
        Record::read(0x10).to(0),
        Record::step().to(0),
    ];
    let ring = Chart::of(records).shaped(0, 1, 1);
    // four bytes over the end of a line, in one set of one way, unknown: the first touch is kept, the second misses
    let straddle = Chart::of(vec![Record::read(0x0E).sized(2)]).shaped(0, 1, 0);
    for (chart, side, visits, costs, expected) in [
        (&ring, Side::High, &[7, 3, 4][..], &[10, 10, 0][..], 70 + 30),
        (&ring, Side::Low, &[7, 3, 4], &[1, 10, 0], 7 + 30),
        (&straddle, Side::High, &[5], &[11], 55 + 9),
        (&straddle, Side::Low, &[3], &[11], 33),
    ] {
        assert_eq!(Shown::of_visits(side, visits, costs).of(chart), Ok(expected));
        // one less for a high bound leaves too much at the entry, and one more for a low one
        let mut other = costs.to_vec();
        other[0] += if side == Side::High { -1 } else { 1 };
        assert_eq!(Shown::of_visits(side, visits, &other).of(chart), refusal(25, 0));
    }
}

/// The bound of the loop of charts/branch.txt, by facts of left, right and after with their limits and multipliers.
fn of_branch(side: Side, facts: &[([i64; 3], i64, i64)], potentials: [i64; 6]) -> Result<u64, Refusal> {
    // head, fork, left, right, tail and after
    let records = vec![
        Record::read(0x00).to(1).to(5),
        Record::step().to(2).to(3),
        Record::read(0x10).to(4),
        Record::read(0x20).to(4),
        Record::read(0x30).to(0),
        Record::read(0x00),
    ];
    let coefficients = |&([left, right, after], ..): &([i64; 3], i64, i64)| [0, 0, left, right, 0, after];
    let shown = Shown {
        side,
        coefficients: facts.iter().flat_map(coefficients).collect(),
        limits: facts.iter().map(|fact| fact.1).collect(),
        multipliers: facts.iter().map(|fact| fact.2).collect(),
        potentials: potentials.to_vec(),
        denominator: 1,
    };
    shown.of(&Chart::of(records).shaped(0, 4, 1))
}

#[test]
fn a_loop_with_a_branch_pays_one_side_of_it() {
    // three touches in each of ten turns, two on the way out, and four first loads
    let at_most = [([1, 1, 0], 10, 3)];
    assert_eq!(of_branch(Side::High, &at_most, [1, 1, -1, -1, 0, 2]), Ok(32 + 36));
    // a walk may end in its tenth turn, before tail
    let at_least = ([-1, -1, 0], -10, 3);
    assert_eq!(of_branch(Side::Low, &[at_least], [-1, -1, 1, 1, 0, -2]), Ok(29));
    // but not one that comes to after
    let after = ([0, 0, -1], -1, 3);
    assert_eq!(of_branch(Side::Low, &[at_least, after], [-1, -1, 1, 1, 0, 1]), Ok(32));
}

#[test]
fn each_potential_of_a_marked_node_counts() {
    for shown in Shown::both() {
        // one less: the entry's own, and then at the node whose arrow leads there
        for (node, place) in [(0, 0), (1, 0), (2, 1)] {
            let change = |_: &mut Question, shown: &mut Shown| shown.potentials[node] -= 1;
            assert_eq!(after(&shown, change), refusal(25, place));
        }
    }
    // one more may be too much for the next, and is paid if it is the largest
    for (shown, answers) in [
        (Shown::high(), [refusal(25, 0), refusal(25, 1), Ok(39 + LOADS)]),
        (Shown::low(), [refusal(25, 0), refusal(25, 1), Ok(26)]),
    ] {
        for (node, answer) in answers.into_iter().enumerate() {
            let change = |_: &mut Question, shown: &mut Shown| shown.potentials[node] += 1;
            assert_eq!(after(&shown, change), answer, "{node}");
        }
        let all = |_: &mut Question, shown: &mut Shown| shown.potentials.iter_mut().for_each(|own| *own += 2);
        let paid = if shown.side == Side::High { 40 + LOADS } else { 25 };
        assert_eq!(after(&shown, all), Ok(paid));
    }
}

#[test]
fn the_potential_of_a_node_without_a_mark_does_not_count() {
    for potential in [-1 << 60, 0, 1 << 60] {
        for shown in Shown::both() {
            let change = |_: &mut Question, shown: &mut Shown| shown.potentials[3] = potential;
            assert_eq!(after(&shown, change), after(&shown, |_, _| ()));
        }
    }
}

#[test]
fn each_coefficient_and_each_multiplier_counts() {
    // with one less taken away too much is left for the potentials; at the last node that does not matter
    for (place, refused) in [(0, 0), (1, 0), (2, 1), (4, 0), (5, 0), (6, 1)] {
        for shown in Shown::both() {
            let change = |_: &mut Question, shown: &mut Shown| shown.coefficients[place] -= 1;
            assert_eq!(after(&shown, change), refusal(25, refused), "{place}");
        }
    }
    for place in [3, 7] {
        let change = |_: &mut Question, shown: &mut Shown| shown.coefficients[place] -= 1;
        assert_eq!(after(&Shown::high(), change), Ok(39 + LOADS));
    }
    let change = |_: &mut Question, shown: &mut Shown| shown.multipliers.swap(0, 1);
    assert_eq!(after(&Shown::high(), change), refusal(25, 0));
    let change = |_: &mut Question, shown: &mut Shown| shown.denominator = 3;
    assert_eq!(after(&Shown::high(), change), refusal(25, 0));
}

#[test]
fn a_certificate_for_the_other_side_is_not_taken_for_this_one() {
    let change = |_: &mut Question, shown: &mut Shown| shown.side = Side::High;
    assert_eq!(after(&Shown::low(), change), refusal(25, 0));
    let change = |_: &mut Question, shown: &mut Shown| shown.side = Side::Low;
    assert_eq!(after(&Shown::high(), change), Ok(0));
}

/// The lists of a bound.
type List = fn(&mut Shown) -> &mut Vec<i64>;

const LISTS: [List; 4] = [
    |shown| &mut shown.coefficients,
    |shown| &mut shown.limits,
    |shown| &mut shown.multipliers,
    |shown| &mut shown.potentials,
];

#[test]
fn each_list_has_its_length() {
    for list in LISTS {
        let length = list(&mut Shown::high()).len();
        for other in [0, length - 1, length + 1, 2 * length] {
            let change = |_: &mut Question, shown: &mut Shown| list(shown).resize(other, 0);
            assert_eq!(after(&Shown::high(), change), refusal(23, 0));
        }
    }
}

/// Changes of one number, or of several that are too large together.
const OUT_OF_RANGE: [fn(&mut Shown); 15] = [
    |shown| shown.coefficients[7] = (1 << 24) + 1,
    |shown| shown.coefficients[0] = -(1 << 24) - 1,
    |shown| shown.coefficients[3] = i64::MIN,
    |shown| shown.limits[1] = (1 << 24) + 1,
    |shown| shown.limits[0] = -(1 << 24) - 1,
    |shown| shown.limits[0] = i64::MAX,
    |shown| shown.multipliers[1] = -1,
    |shown| shown.multipliers[0] = (1 << 36) + 1,
    |shown| shown.multipliers = vec![1, 1 << 36],
    |shown| shown.multipliers = vec![i64::MAX, i64::MAX],
    |shown| shown.potentials[3] = (1 << 60) + 1,
    |shown| shown.potentials[0] = -(1 << 60) - 1,
    |shown| shown.denominator = 0,
    |shown| shown.denominator = (1 << 32) + 1,
    |shown| shown.denominator = u64::MAX,
];

#[test]
fn a_number_out_of_its_range_is_refusal_24() {
    for shown in Shown::both() {
        for fault in OUT_OF_RANGE {
            assert_eq!(after(&shown, |_, shown| fault(shown)), refusal(24, 0));
        }
    }
}

/// The ends of the ranges. They take so much away that the same potential at each node holds, if it does at the entry.
fn at_the_ends(side: Side, limit: i64, potential: i64, denominator: u64) -> Shown {
    Shown {
        side,
        coefficients: vec![1 << 24; NODES],
        limits: vec![limit],
        multipliers: vec![1 << 36],
        potentials: vec![potential; NODES],
        denominator,
    }
}

#[test]
fn the_ends_of_the_ranges_count_whole() {
    let (most, highest) = (1 << 24, 1 << 60);
    let asked = |side, limit, potential, denominator| {
        let shown = at_the_ends(side, limit, potential, denominator);
        after(&shown, |_, _| ())
    };
    // 2^60 and 2^60
    assert_eq!(asked(Side::High, most, highest, 1), Ok((1 << 61) + LOADS));
    assert_eq!(asked(Side::High, most, highest, 1 << 32), Ok((1 << 29) + LOADS));
    assert_eq!(asked(Side::Low, -most, -highest, 1), Ok(1 << 61));
    assert_eq!(asked(Side::Low, -most, -highest, 1 << 32), Ok(1 << 29));
    // such a limit rules all nodes out, so that nothing is loaded
    assert_eq!(asked(Side::High, -most, highest, 1), Ok(0));
    // the entry is left with 3 * 2^32 - 2^60
    assert_eq!(asked(Side::High, most, -highest, 1 << 32), refusal(25, 0));
}

#[test]
fn not_one_is_lost_at_the_ends_of_the_ranges() {
    let (most, highest, visit) = (1 << 24, 1 << 60, 3 << 32);
    let mut shown = at_the_ends(Side::Low, -most, 0, 1 << 32);
    shown.coefficients[0] = -most;
    shown.potentials = vec![highest - visit, -2 * visit, -highest, highest];
    // -(2^60 - 3 * 2^32 - 2^60) / 2^32
    assert_eq!(after(&shown, |_, _| ()), Ok(3));
    for node in [0, 1] {
        let change = |_: &mut Question, shown: &mut Shown| shown.potentials[node] -= 1;
        assert_eq!(after(&shown, change), refusal(25, 0));
    }
    // and what is left past the largest potential holds nowhere
    let change = |_: &mut Question, shown: &mut Shown| shown.side = Side::High;
    assert_eq!(after(&shown, change), refusal(25, 0));
}

#[test]
fn lengths_come_before_ranges_and_these_before_what_does_not_hold() {
    let no_certificate = |shown: &mut Shown| shown.potentials[0] = -1000;
    for fault in OUT_OF_RANGE {
        let change = |_: &mut Question, shown: &mut Shown| {
            no_certificate(shown);
            fault(shown);
        };
        assert_eq!(after(&Shown::high(), change), refusal(24, 0));
    }
    let change = |_: &mut Question, shown: &mut Shown| {
        no_certificate(shown);
        shown.denominator = 0;
        shown.coefficients.push(0);
    };
    assert_eq!(after(&Shown::high(), change), refusal(23, 0));
}

#[test]
fn chart_table_and_costs_come_before_facts_and_certificate() {
    for (fault, number, place) in FAULTS {
        let right = |question: &mut Question, _: &mut Shown| fault(question);
        assert_eq!(after(&Shown::high(), right), refusal(number, place));
        let wrong = |question: &mut Question, shown: &mut Shown| {
            fault(question);
            shown.denominator = 0;
            shown.potentials.clear();
        };
        assert_eq!(after(&Shown::low(), wrong), refusal(number, place));
    }
}
