//! Which lines cause what differs: each alone is put in the place of its other version, and what that text says is worked out anew.

use crate::compare::Half;
use crate::differing::Differing;
use crate::due::Due;
use crate::findings::{refused_in, Findings};
use crate::given::Given;
use crate::known::Known;
use crate::lack::Lack;
use crate::made::made;
use crate::matched::{matched, Classed};
use crate::source::{Source, Span};
use crate::statements::Statement;
use crate::totals::low_and_high;
use crate::trouble::Trouble;
use veilbuzz::Analysis;

/// So many lines are tried, and no more.
pub const TRIED: usize = 40;

/// So many bytes of text are read for all trials together: of a very long text fewer lines are tried.
const READ: usize = 32 << 20;

/// What comes of the one text with this line as the other has it.
pub enum Alone {
    Changes(Changes),
    /// It says no chart, and why.
    NoChart(String),
    NotTried,
}

pub struct Changes {
    /// How many nodes have other classes than in the one chart.
    pub nodes: usize,
    /// The totals of floors and ceilings alone.
    pub totals: Result<veilbuzz::Totals, Lack>,
    /// Whether the deadline is then met, where there is a verdict. Bounds with facts are not asked for.
    pub met: Option<bool>,
    /// Whether all classes, and the totals and the verdict if both charts have them, are then those of the other chart, and not those of the one.
    pub all: bool,
}

pub fn causes(one: &Half, other: &Half, lines: &[Differing], hit: Option<u16>, miss: Option<u16>) -> Vec<Alone> {
    let trials = TRIED.min(READ / one.source.text.len().max(1));
    let tried = |(place, line): (usize, &Differing)| match place < trials {
        true => alone(one, other, line, hit, miss).unwrap_or_else(|trouble| Alone::NoChart(trouble.what())),
        false => Alone::NotTried,
    };
    lines.iter().enumerate().map(tried).collect()
}

fn alone(one: &Half, other: &Half, line: &Differing, hit: Option<u16>, miss: Option<u16>) -> Result<Alone, Trouble> {
    let known = made(Source {
        file: one.source.file.clone(),
        text: mixed(&one.source.text, &other.source.text, line),
    })?;
    let analysis = Analysis::of(&known.chart).map_err(|refusal| refused_in(&known, refusal))?;
    let classed = Classed {
        known: &known,
        classes: &analysis.classes,
    };
    let totals = plain(&known, &analysis, hit, miss);
    let nodes = matched(one.classed(), classed).differ.len();
    let [totals_changed, totals_as_in_other] = match (one.plain(), other.plain()) {
        (Ok(before), Ok(after)) => [totals != Ok(before), totals == Ok(after)],
        _ => [false, true],
    };
    let met = met(&known, hit, miss);
    let [met_changed, met_as_in_other] = match (one.met(), other.met(), met) {
        (Some(before), Some(after), Some(now)) => [now != before, now == after],
        _ => [false, true],
    };
    let changed = nodes > 0 || totals_changed || met_changed;
    let as_in_other = totals_as_in_other && met_as_in_other && matched(classed, other.classed()).are_same();
    Ok(Alone::Changes(Changes {
        nodes,
        totals,
        met,
        all: changed && as_in_other,
    }))
}

/// The one text, with a line as the other has it.
fn mixed(one: &str, other: &str, line: &Differing) -> String {
    let piece = |Span { start, end }: Span| &other[start..end];
    let version = line.other.map_or("", |statement| piece(statement.span));
    match line.one {
        Some(Statement { span, .. }) => [&one[..span.start], version, &one[span.end..]].concat(),
        None => [one, "\n", version].concat(),
    }
}

/// Whether the deadline of a text without facts is met, where there is a verdict.
fn met(known: &Known, hit: Option<u16>, miss: Option<u16>) -> Option<bool> {
    let asked = known.facts.is_empty() && known.clock.is_some() && known.limits.is_some();
    let findings = asked.then(|| Findings::of(known).ok()).flatten()?;
    let due = Due::of(&findings, hit, miss).ok()?;
    Some(due.met())
}

fn plain(known: &Known, analysis: &Analysis, hit: Option<u16>, miss: Option<u16>) -> Result<veilbuzz::Totals, Lack> {
    let lack = |trouble: Trouble| Lack::of(known, &trouble);
    let given = Given::of(known, hit, miss).map_err(lack)?;
    match given.whole {
        true => low_and_high(known, analysis, &given).map_err(lack),
        false => Err(Lack::of_visits(known)),
    }
}
