//! `./desk totals`: the low and the high total, and what each node and each first load adds to them; and what facts make of them.

use crate::again::never_again;
use crate::answer::Answer;
use crate::bounded::{bounded, said, Bounded};
use crate::fact::Saying;
use crate::facts_words::sentences;
use crate::findings::Findings;
use crate::given::{without_visits, Given};
use crate::known::Known;
use crate::loads::{loads, Load};
use crate::misgiven::misgiven;
use crate::shares::{shares, sum, thousandths};
use crate::totals_json::json;
use crate::totals_words::words;
use crate::trouble::Trouble;
use std::cmp::Reverse;
use veilbuzz::{total, Analysis, Costs};

pub struct Totals<'a> {
    pub findings: &'a Findings<'a>,
    pub costs: Costs,
    /// Nothing where the visits of a node are not said, which facts make up for.
    pub plain: Option<Plain>,
    /// The nodes whose visits no walk can make.
    pub never_again: Vec<usize>,
    /// Nothing where the text has no facts.
    pub bounded: Option<Bounded<'a>>,
}

/// The totals of floors and ceilings alone.
pub struct Plain {
    pub totals: veilbuzz::Totals,
    pub sum: veilbuzz::Totals,
    /// The largest share of the high total first.
    pub shares: Vec<Share>,
    /// In the order of the blocks.
    pub loads: Vec<Load>,
}

/// What a node adds.
pub struct Share {
    pub node: usize,
    pub adds: veilbuzz::Totals,
    /// Its part of the high total, in thousandths.
    pub thousandths: Option<u64>,
}

/// Costs that are given at the call go before those of the text.
pub fn totals(known: &Known, hit: Option<u16>, miss: Option<u16>) -> Result<Answer, Trouble> {
    let findings = Findings::of(known)?;
    let said = said(&findings);
    let totals = Totals::of(&findings, said.as_deref(), hit, miss)?;
    Ok(Answer::new(words(&totals), json(&totals)))
}

impl<'a> Totals<'a> {
    /// The totals of a chart, and the bounds that follow from what its text says of walks, if it has facts.
    pub fn of(
        findings: &'a Findings<'a>,
        said: Option<&'a [Saying]>,
        hit: Option<u16>,
        miss: Option<u16>,
    ) -> Result<Totals<'a>, Trouble> {
        let given = Given::of(findings.known, hit, miss)?;
        // where visits are not said whole, those that are can still be refused
        let plain = plain(findings, &given)?;
        let totals = Totals {
            findings,
            costs: given.costs,
            plain: Some(plain).filter(|_| given.whole),
            never_again: never_again(findings),
            bounded: said.map(|said| bounded(findings, given.costs, said)),
        };
        match &totals.bounded {
            Some(bounded) if totals.plain.is_none() && bounded.says_nothing() => {
                Err(unbounded(findings.known, bounded))
            }
            _ => Ok(totals),
        }
    }
}

/// The low and the high total, as the proved function gives them.
pub fn low_and_high(known: &Known, analysis: &Analysis, given: &Given) -> Result<veilbuzz::Totals, Trouble> {
    let refused = |refusal| misgiven(known, given, refusal);
    total(&known.chart, analysis.table(), given.costs, given.bounds()).map_err(refused)
}

fn plain(findings: &Findings, given: &Given) -> Result<Plain, Trouble> {
    let known = findings.known;
    let totals = low_and_high(known, &findings.analysis, given)?;
    let each = shares(findings, given).map_err(|refusal| misgiven(known, given, refusal))?;
    let loads = loads(findings, given);
    let sum = sum(&each, &loads);
    if sum != totals {
        return Err(apart(known, totals, sum));
    }
    let share = |(node, adds): (usize, veilbuzz::Totals)| Share {
        node,
        adds,
        thousandths: thousandths(adds.high, totals.high),
    };
    let mut shares: Vec<Share> = each.into_iter().enumerate().map(share).collect();
    shares.sort_by_key(|share| (Reverse(share.adds.high), share.node));
    Ok(Plain {
        totals,
        sum,
        shares,
        loads,
    })
}

/// That neither the facts nor the visits give a bound.
fn unbounded(known: &Known, bounded: &Bounded) -> Trouble {
    Trouble::Unanswered {
        what: format!(
            "{}: without the facts totals need the visits of {}",
            known.file,
            without_visits(known)
        ),
        mend: sentences(bounded).join(" "),
    }
}

/// That the shares do not come to the totals, which is no fault of a chart.
fn apart(known: &Known, totals: veilbuzz::Totals, sum: veilbuzz::Totals) -> Trouble {
    Trouble::Unanswered {
        what: format!(
            "{}: the totals are {} and {}, and the shares come to {} and {}",
            known.file, totals.low, totals.high, sum.low, sum.high
        ),
        mend: "this must not be: rely on neither, and keep the chart, for it shows a fault of the desk".into(),
    }
}
