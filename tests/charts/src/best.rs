//! The best certificate there is for facts, by a linear program of the flow along the arrows.

use crate::claim::Claim;
use crate::fraction::Fraction;
use crate::simplex::{Program, Solved};
use second::grounds::Grounds;

/// How often a walk goes a way: it comes in at the entry, goes along each arrow, and ends at a node. So each way comes to a node and leaves one, but
/// for the first and the last.
struct Way {
    from: Option<usize>,
    to: Option<usize>,
}

fn ways(grounds: &Grounds) -> Vec<Way> {
    let marked = |node: &usize| grounds.nodes[*node].marked;
    let nodes = || (0..grounds.nodes.len()).filter(marked);
    let begin = Way {
        from: None,
        to: Some(grounds.entry),
    };
    let arrows = nodes().flat_map(|from| grounds.nodes[from].targets.iter().map(move |&to| (from, to)));
    let along = arrows.map(|(from, to)| Way {
        from: Some(from),
        to: Some(to),
    });
    let ends = nodes().map(|from| Way {
        from: Some(from),
        to: None,
    });
    [begin].into_iter().chain(along).chain(ends).collect()
}

/// What is known of the facts of a claim.
#[derive(Clone, Debug, PartialEq)]
pub enum Best {
    /// The claim with the multipliers, potentials and denominator than which none give a better bound.
    Claim(Claim),
    /// No walk keeps the facts, nor any flow: there is no best one.
    NoWalk,
    /// No certificate holds.
    None,
}

/// The best certificate for the facts and the side of a claim.
pub fn best(grounds: &Grounds, claim: &Claim) -> Best {
    let ways = ways(grounds);
    let side = claim.side().expect("there is such a side");
    let counted = |node: Option<usize>| node.map_or(0, |node| side.of_visit(&grounds.nodes[node]));
    let facts: Vec<_> = claim.facts().each(grounds.nodes.len()).collect();
    let equations = (0..grounds.nodes.len()).map(|node| {
        let comes = |way: &Way| i128::from(way.to == Some(node)) - i128::from(way.from == Some(node));
        (ways.iter().map(comes).map(Fraction::whole).collect(), Fraction::ZERO)
    });
    let one_end = ways.iter().map(|way| Fraction::whole(way.to.is_none()));
    let mut program = Program {
        equations: equations.chain([(one_end.collect(), Fraction::ONE)]).collect(),
        gains: ways.iter().map(|way| Fraction::whole(counted(way.to))).collect(),
    };
    for fact in &facts {
        let own = |way: &Way| way.to.map_or(0, |node| fact.coefficients[node]);
        let factors = ways.iter().map(own).map(Fraction::whole).collect();
        program.equations.push((factors, Fraction::whole(fact.limit)));
    }
    // what a fact leaves of its limit is a number of its own
    let before = grounds.nodes.len() + 1;
    for (number, (factors, _)) in program.equations.iter_mut().enumerate() {
        factors.extend((0..facts.len()).map(|fact| Fraction::whole(number == before + fact)));
    }
    program.gains.resize(ways.len() + facts.len(), Fraction::ZERO);
    match program.solve() {
        Solved::Most { gain, prices } => {
            let sums = program.equations.iter().zip(&prices);
            let paid = sums.fold(Fraction::ZERO, |paid, ((_, sum), &price)| paid + *sum * price);
            assert_eq!(
                paid, gain,
                "what a flow comes to is what the certificate says, so that neither can be better"
            );
            Best::Claim(priced(claim, &prices, grounds.nodes.len()))
        }
        Solved::Impossible => Best::NoWalk,
        Solved::Boundless => Best::None,
    }
}

/// The certificate that the prices of the equations are, since those of the nodes are potentials and those of the facts multipliers. Between them
/// stands that of the one end, the largest potential.
fn priced(claim: &Claim, prices: &[Fraction], nodes: usize) -> Claim {
    let (of_nodes, rest) = prices.split_at(nodes);
    let of_facts = &rest[1..];
    let cleared = of_nodes.iter().chain(of_facts);
    let denominator = cleared.fold(1, |multiple, price| price.clearing(multiple));
    let whole = |price: &Fraction| i64::try_from(price.times_whole(denominator)).expect("the numbers are small");
    Claim {
        multipliers: of_facts.iter().map(whole).collect(),
        potentials: of_nodes.iter().map(whole).collect(),
        denominator: denominator.try_into().expect("the numbers are small"),
        ..claim.clone()
    }
}
