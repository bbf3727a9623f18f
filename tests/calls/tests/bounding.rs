//! So that a run is no idle one: what the calls of veilbuzz_bound among the gate's shortest file have among them.

mod met;

use calls::{Case, Function, SEED};
use charts::Claim;
use met::each;
use second::cache::Costs;
use second::certificate::Side;
use second::grounds::Grounds;
use second::lent::Lent;
use second::ranges::{COEFFICIENTS, DENOMINATORS, LIMITS, MULTIPLIERS, POTENTIALS};
use std::sync::OnceLock;

/// A call of veilbuzz_bound by what counts below.
struct Asked {
    returned: u64,
    /// What is told, where the call has room to tell it.
    place: usize,
    bound: u64,
    /// What the claim is about, where that is accepted.
    grounds: Option<Grounds>,
    claim: Claim,
    /// Of the four lists of the claim, by how much each is too long.
    longer: [isize; 4],
}

fn asked(case: &Case) -> Asked {
    let [hit, miss, side, denominator] = case.numbers[..] else {
        panic!("the bound takes four numbers");
    };
    let [must, may, marks] = [1, 2, 3].map(|place: usize| case.buffers[place].elements::<u8>());
    let lent = Lent {
        must: &must,
        may: &may,
        marks: &marks,
    };
    let costs = Costs {
        hit: hit as u16,
        miss: miss as u16,
    };
    let [coefficients, limits, multipliers, potentials] =
        [4, 5, 6, 7].map(|place: usize| case.buffers[place].elements::<i64>());
    let told = case.buffers[8].elements::<u64>();
    let told = |place: usize| if case.returned == 11 { 0 } else { told[place] };
    Asked {
        returned: case.returned,
        place: told(1) as usize,
        bound: told(2),
        grounds: Grounds::of(&case.buffers[0].elements::<u8>(), lent, costs).ok(),
        claim: Claim {
            side,
            coefficients,
            limits,
            multipliers,
            potentials,
            denominator,
        },
        longer: [4, 5, 6, 7].map(|place: usize| {
            let list = &case.buffers[place];
            list.length as isize - list.needed as isize
        }),
    }
}

/// All calls, made once for all tests.
fn all_asked() -> impl Iterator<Item = &'static Asked> {
    static ALL: OnceLock<Vec<Asked>> = OnceLock::new();
    let all = || (0..60_000).map(|number| calls::case(SEED, number));
    let bounds = || all().filter(|case| case.function == Function::Bound);
    ALL.get_or_init(|| bounds().map(|case| asked(&case)).collect()).iter()
}

fn returning(number: u64) -> impl Iterator<Item = &'static Asked> {
    all_asked().filter(move |asked| asked.returned == number)
}

const FAULTS: [&str; 11] = [
    "a coefficient below",
    "a coefficient above",
    "a limit below",
    "a limit above",
    "a multiplier below",
    "multipliers above",
    "a potential below",
    "a potential above",
    "a denominator of 0",
    "a denominator above",
    "no side",
];

impl Asked {
    fn grounds(&self) -> &Grounds {
        self.grounds
            .as_ref()
            .expect("what comes to facts has a table that passes")
    }

    fn together(&self) -> i128 {
        self.claim.multipliers.iter().map(|&own| i128::from(own)).sum()
    }

    /// What is out of its range.
    fn faults(&self) -> Vec<&'static str> {
        let Claim {
            coefficients,
            limits,
            multipliers,
            potentials,
            denominator,
            ..
        } = &self.claim;
        let found = [
            coefficients.iter().any(|own| own < COEFFICIENTS.start()),
            coefficients.iter().any(|own| own > COEFFICIENTS.end()),
            limits.iter().any(|own| own < LIMITS.start()),
            limits.iter().any(|own| own > LIMITS.end()),
            multipliers.iter().any(|&own| own < 0),
            self.together() > MULTIPLIERS,
            potentials.iter().any(|own| own < POTENTIALS.start()),
            potentials.iter().any(|own| own > POTENTIALS.end()),
            denominator < DENOMINATORS.start(),
            denominator > DENOMINATORS.end(),
            self.claim.side().is_none(),
        ];
        let names = FAULTS.iter().zip(found).filter(|(_, found)| *found);
        names.map(|(&name, _)| name).collect()
    }

    /// What a visit of each node is left with, if a side is named and the lists fit.
    fn rests(&self) -> Vec<i128> {
        let side = self.claim.side().expect("a side is named");
        self.claim.certificate().rests(self.grounds(), side, self.claim.facts())
    }

    /// By how much the entry's potential is too small, if this is the entry, and how much that of each arrow's target; below 0 if it is larger.
    fn lacks(&self, node: usize) -> Vec<(&'static str, i128)> {
        let (grounds, rests, certificate) = (self.grounds(), self.rests(), self.claim.certificate());
        let own = certificate.potential(node);
        let lacks = |target: &usize| own + rests[*target] - certificate.potential(*target);
        let entry = (node == grounds.entry).then(|| ("the entry", rests[node] - own));
        let arrows = grounds.nodes[node].targets.iter().map(lacks);
        let arrows = ["the first arrow", "the second arrow"].into_iter().zip(arrows);
        entry.into_iter().chain(arrows).collect()
    }
}

#[test]
fn each_list_alone_is_longer_and_shorter() {
    let alone = returning(23).filter(|asked| asked.longer.iter().filter(|&&longer| longer != 0).count() == 1);
    let which = alone.map(|asked| {
        let list = asked.longer.iter().position(|&longer| longer != 0);
        let list = list.expect("one has another length");
        (list, asked.longer[list].signum())
    });
    each(10, (0..4).flat_map(|list| [(list, 1), (list, -1)]), which);
}

#[test]
fn each_number_alone_is_out_of_its_range() {
    let alone = returning(24).filter_map(|asked| match asked.faults()[..] {
        [fault] => Some(fault),
        _ => None,
    });
    each(10, FAULTS, alone);
}

#[test]
fn each_number_that_passes_stands_at_each_end() {
    let ends = returning(0).flat_map(|asked| {
        let claim = &asked.claim;
        let marked = |&node: &usize| asked.grounds().nodes[node].marked;
        let of_marked: Vec<i64> = (0..claim.potentials.len())
            .filter(marked)
            .map(|node| claim.potentials[node])
            .collect();
        let found = [
            ("a coefficient", claim.coefficients.contains(COEFFICIENTS.start())),
            (
                "a coefficient's other end",
                claim.coefficients.contains(COEFFICIENTS.end()),
            ),
            ("a limit", claim.limits.contains(LIMITS.start())),
            ("a limit's other end", claim.limits.contains(LIMITS.end())),
            ("a multiplier", claim.multipliers.contains(&0)),
            ("multipliers together", asked.together() == MULTIPLIERS),
            ("a potential", claim.potentials.contains(POTENTIALS.start())),
            ("a potential's other end", claim.potentials.contains(POTENTIALS.end())),
            ("that of a marked node", of_marked.contains(POTENTIALS.end())),
            ("a denominator", claim.denominator == *DENOMINATORS.start()),
            ("a denominator's other end", claim.denominator == *DENOMINATORS.end()),
        ];
        found.map(|(name, found)| (name, asked.claim.side, found))
    });
    let names = [
        "a coefficient",
        "a coefficient's other end",
        "a limit",
        "a limit's other end",
        "a multiplier",
        "multipliers together",
        "a potential",
        "a potential's other end",
        "that of a marked node",
        "a denominator",
        "a denominator's other end",
    ];
    each(
        10,
        names.into_iter().flat_map(|name| [(name, 0, true), (name, 1, true)]),
        ends,
    );
}

#[test]
fn certificates_lack_one_and_more_at_the_entry_and_along_each_arrow() {
    let alone = returning(25).filter_map(|asked| {
        let lacks = asked.lacks(asked.place).into_iter();
        let lacks: Vec<_> = lacks.filter(|&(_, lack)| lack > 0).collect();
        match lacks[..] {
            [(name, lack)] => Some((name, lack == 1, asked.claim.side)),
            _ => None,
        }
    });
    let names = ["the entry", "the first arrow", "the second arrow"];
    let expected = names
        .into_iter()
        .flat_map(|name| [(name, true, 0), (name, true, 1), (name, false, 0), (name, false, 1)]);
    each(10, expected, alone);
}

#[test]
fn a_certificate_fails_at_any_node_also_where_one_after_it_fails() {
    let places = returning(25).map(|asked| {
        let later = (asked.place + 1..asked.grounds().nodes.len()).any(|node| {
            let rests = asked.rests();
            !asked.claim.certificate().holds_at(asked.grounds(), &rests, node)
        });
        (asked.place.min(3), later)
    });
    each(5, (0..=3).flat_map(|place| [(place, true), (place, false)]), places);
}

#[test]
fn each_refusal_comes_before_those_of_facts_and_certificates() {
    let faulty = |asked: &&Asked| asked.longer != [0; 4] || !asked.faults().is_empty();
    let numbers = (1..=11).chain([13, 15]);
    each(3, numbers, all_asked().filter(faulty).map(|asked| asked.returned));
}

#[test]
fn lengths_come_before_ranges_and_these_before_what_does_not_hold() {
    let ranges = returning(23).filter(|asked| !asked.faults().is_empty()).count();
    assert!(ranges >= 20, "{ranges}");
    let holding = returning(24)
        .filter(|asked| asked.claim.side().is_some())
        .filter(|asked| {
            let (grounds, rests) = (asked.grounds(), asked.rests());
            (0..grounds.nodes.len()).any(|node| !asked.claim.certificate().holds_at(grounds, &rests, node))
        });
    let holding = holding.count();
    assert!(holding >= 20, "{holding}");
}

/// The largest potential of a marked node, and the multipliers times the limits.
fn sum(asked: &Asked) -> i128 {
    asked.claim.certificate().sum(asked.grounds(), asked.claim.facts())
}

#[test]
fn bounds_of_both_sides_are_0_and_more_and_the_sum_is_on_each_side_of_0() {
    let ways = returning(0).map(|asked| (asked.claim.side, sum(asked).signum(), asked.bound > 0));
    // a high bound of a sum below 0 can have first loads
    let expected = [
        (0, 1, true),
        (0, -1, false),
        (0, -1, true),
        (1, -1, true),
        (1, 1, false),
    ];
    each(10, expected, ways);
    let none = returning(0).filter(|asked| asked.claim.limits.is_empty());
    each(50, [0, 1], none.map(|asked| asked.claim.side));
}

/// The blocks that are kept at such nodes.
fn loads(asked: &Asked, may_come: impl Fn(usize) -> bool) -> i128 {
    let (grounds, mut loaded) = (asked.grounds(), vec![false; asked.grounds().blocks]);
    for node in (0..grounds.nodes.len()).filter(|&node| may_come(node)) {
        grounds.nodes[node].kept.iter().for_each(|&block| loaded[block] = true);
    }
    let once = loaded.into_iter().filter(|&loaded| loaded).count();
    once as i128 * i128::from(grounds.difference)
}

/// Those that are paid for.
fn first_loads(asked: &Asked) -> i128 {
    let facts = asked.claim.facts();
    let nodes = asked.grounds().nodes.len();
    loads(asked, |node| !facts.each(nodes).any(|fact| fact.rules_out(node)))
}

/// Makes a bound from a sum, a denominator and first loads.
fn made(asked: &Asked, sum: i128, first_loads: i128) -> i128 {
    let denominator = i128::from(asked.claim.denominator);
    match asked.claim.side() {
        Some(Side::High) => sum.max(0) / denominator + first_loads,
        _ => ((-sum).max(0) + denominator - 1) / denominator,
    }
}

/// Makes a bound in a way that is wrong.
type Way = fn(&Asked) -> i128;

/// Such ways, with how many bounds would be others at least.
const WRONG: [(&str, usize, Way); 9] = [
    ("rounded the other way", 200, |asked| {
        let denominator = i128::from(asked.claim.denominator);
        match asked.claim.side() {
            Some(Side::High) => (sum(asked).max(0) + denominator - 1) / denominator + first_loads(asked),
            _ => (-sum(asked)).max(0) / denominator,
        }
    }),
    ("no first loads", 500, |asked| made(asked, sum(asked), 0)),
    ("first loads where no walk comes", 20, |asked| {
        made(asked, sum(asked), loads(asked, |_| true))
    }),
    ("a limit of 0 rules nothing out", 10, |asked| {
        let facts = asked.claim.facts();
        let nodes = asked.grounds().nodes.len();
        let below = |node| facts.each(nodes).any(|fact| fact.limit < 0 && fact.rules_out(node));
        made(asked, sum(asked), loads(asked, |node| !below(node)))
    }),
    ("ruled out in spite of what is below 0", 10, |asked| {
        let facts = asked.claim.facts();
        let nodes = asked.grounds().nodes.len();
        let out = |node: usize| {
            facts
                .each(nodes)
                .any(|fact| fact.limit <= 0 && fact.coefficients[node] > 0)
        };
        made(asked, sum(asked), loads(asked, |node| !out(node)))
    }),
    ("potentials of all nodes", 50, |asked| {
        let marked = asked.grounds().nodes.iter().zip(&asked.claim.potentials);
        let largest = marked.filter(|(node, _)| node.marked).map(|(_, &own)| own).max();
        let of_all = asked.claim.potentials.iter().copied().max();
        let more = i128::from(of_all.unwrap_or(0)) - i128::from(largest.unwrap_or(0));
        made(asked, sum(asked) + more, first_loads(asked))
    }),
    ("the entry's potential", 80, |asked| {
        let marked = asked.grounds().nodes.iter().zip(&asked.claim.potentials);
        let largest = marked.filter(|(node, _)| node.marked).map(|(_, &own)| own).max();
        let entry = asked.claim.certificate().potential(asked.grounds().entry);
        made(
            asked,
            sum(asked) - i128::from(largest.unwrap_or(0)) + entry,
            first_loads(asked),
        )
    }),
    ("without a limit", 500, |asked| {
        let limits = asked.claim.multipliers.iter().zip(&asked.claim.limits);
        let limits: i128 = limits.map(|(&own, &limit)| i128::from(own) * i128::from(limit)).sum();
        made(asked, sum(asked) - limits, first_loads(asked))
    }),
    ("first loads of a low bound", 100, |asked| {
        let low = asked.claim.side == 1;
        made(asked, sum(asked), first_loads(asked)) + if low { first_loads(asked) } else { 0 }
    }),
];

/// How many bounds would be others if they were made so.
fn others(bound: Way) -> usize {
    let differ = |asked: &&Asked| bound(asked) != i128::from(asked.bound);
    returning(0).filter(differ).count()
}

#[test]
fn bounds_would_be_others_if_they_were_made_in_another_way() {
    assert_eq!(others(|asked| made(asked, sum(asked), first_loads(asked))), 0);
    for (name, least, way) in WRONG {
        let others = others(way);
        assert!(others >= least, "{name}: {others} bounds differ");
    }
}

/// Whether a certificate holds, in a way that is wrong.
type Holding = fn(&Asked) -> bool;

/// Whether all of a claim's nodes lack nothing, but for those lacks that are left out.
fn lacks_none(asked: &Asked, looked_at: impl Fn(bool, &str) -> bool, most: i128) -> bool {
    (0..asked.grounds().nodes.len()).all(|node| {
        let marked = asked.grounds().nodes[node].marked;
        let lacks = asked.lacks(node).into_iter();
        lacks
            .filter(|(name, _)| looked_at(marked, name))
            .all(|(_, lack)| lack <= most)
    })
}

/// Such ways, with how many claims would be accepted or refused for that at least.
const WRONGLY_HELD: [(&str, usize, Holding); 6] = [
    ("the entry is not looked at", 50, |asked| {
        lacks_none(asked, |marked, name| marked && name != "the entry", 0)
    }),
    ("second arrows are not looked at", 50, |asked| {
        lacks_none(asked, |marked, name| marked && name != "the second arrow", 0)
    }),
    ("nodes without a mark are looked at", 50, |asked| {
        lacks_none(asked, |_, _| true, 0)
    }),
    ("one may lack", 50, |asked| lacks_none(asked, |marked, _| marked, 1)),
    ("more than enough is wanted", 1000, |asked| {
        lacks_none(asked, |marked, _| marked, -1)
    }),
    ("coefficients go by nodes and not by facts", 100, |asked| {
        let (nodes, facts) = (asked.claim.potentials.len(), asked.claim.limits.len());
        let turned = |place: usize| asked.claim.coefficients[place % nodes * facts + place / nodes];
        let claim = Claim {
            coefficients: (0..nodes * facts).map(turned).collect(),
            ..asked.claim.clone()
        };
        claim.bound(asked.grounds()).is_ok()
    }),
];

#[test]
fn certificates_would_hold_elsewhere_if_they_were_looked_at_in_another_way() {
    let checked = || returning(0).chain(returning(25));
    assert!(checked().all(|asked| lacks_none(asked, |marked, _| marked, 0) == (asked.returned == 0)));
    for (name, least, holds) in WRONGLY_HELD {
        let others = checked().filter(|asked| holds(asked) != (asked.returned == 0)).count();
        assert!(others >= least, "{name}: {others} claims");
    }
}
