//! The few facts that a high bound rests on. Solvers give weight to more than need be: where arrows and other facts say the same, any of
//! them may have it.

use crate::certify::{certified, shown, Certified};
use crate::fact::{Fact, Saying};
use crate::findings::Findings;
use crate::flow::Flow;
use crate::fractions::Whole;
use veilbuzz::{Costs, Side};

/// A bound, and what says the facts of its certificate.
pub struct Rests<'a> {
    pub high: Certified,
    pub on: Vec<&'a Saying>,
}

/// So many are tried to be left out, and no more: each is a program of its own.
const TRIED: usize = 40;

/// Leaves out what the bound is no higher without: visits before lines of facts, so that these stay where both say the same. Where there are
/// very many, those that the solver gives no weight go first, all at once; else what stays is the same whatever the solver prefers.
pub fn rests<'a>(findings: &Findings, costs: Costs, sayings: &'a [Saying], high: Certified) -> Rests<'a> {
    let settled = |rests: Rests<'a>| match sayings.len() > TRIED {
        true => rests.without_idle(findings, costs),
        false => rests,
    };
    let on = sayings.iter().collect();
    let mut rests = settled(Rests { high, on });
    let mut order = rests.on.clone();
    order.sort_by_key(|saying| (saying.visits_of.is_none(), saying.span));
    for saying in order.into_iter().take(TRIED) {
        let on = rests.others(saying);
        if on.len() == rests.on.len() {
            continue;
        }
        match certified(findings, costs, Side::High, &facts(&on)) {
            Ok(high) if high.bound <= rests.high.bound => rests = settled(Rests { high, on }),
            _ => {}
        }
    }
    rests
}

/// The facts that are said, in the order of their multipliers.
pub fn facts<'a>(on: &[&'a Saying]) -> Vec<&'a Fact> {
    on.iter().flat_map(|saying| saying.facts()).collect()
}

impl<'a> Rests<'a> {
    fn others(&self, saying: &Saying) -> Vec<&'a Saying> {
        let others = self.on.iter().filter(|other| other.span != saying.span);
        others.copied().collect()
    }

    /// Each saying with the multipliers of its facts.
    pub fn multipliers(&self) -> Vec<(&'a Saying, &[i64])> {
        let mut rest = self.high.whole.multipliers.as_slice();
        let each = self.on.iter().map(|saying| {
            let (own, others) = rest.split_at(saying.facts().count());
            rest = others;
            (*saying, own)
        });
        each.collect()
    }

    /// Without what has no multiplier above 0, all at once, and one by one where that rules nodes out.
    fn without_idle(self, findings: &Findings, costs: Costs) -> Rests<'a> {
        let flow = Flow::of(findings, costs, Side::High);
        let idle = |(saying, own): &(&'a Saying, &[i64])| (own.iter().all(|own| *own == 0)).then_some(*saying);
        let idle: Vec<&Saying> = self.multipliers().iter().filter_map(idle).collect();
        let (ruling, plain): (Vec<&Saying>, Vec<&Saying>) =
            idle.into_iter().partition(|saying| saying.facts().any(Fact::rules_out));
        let groups = std::iter::once(plain).chain(ruling.into_iter().map(|saying| vec![saying]));
        groups.fold(self, |rests, group| match rests.less(findings, &flow, costs, &group) {
            Some(less) if less.high.bound <= rests.high.bound => less,
            _ => rests,
        })
    }

    /// The same multipliers without those of some sayings.
    fn less(&self, findings: &Findings, flow: &Flow, costs: Costs, group: &[&Saying]) -> Option<Rests<'a>> {
        let stays = |saying: &Saying| !group.iter().any(|other| other.span == saying.span);
        let kept = self.multipliers().into_iter().filter(|(saying, _)| stays(saying));
        let (on, multipliers): (Vec<&Saying>, Vec<&[i64]>) = kept.unzip();
        let whole = Whole {
            denominator: self.high.whole.denominator,
            multipliers: multipliers.concat(),
        };
        let high = shown(findings, flow, costs, Side::High, &facts(&on), whole)?;
        Some(Rests { high, on })
    }
}
