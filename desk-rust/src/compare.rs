//! `./desk compare`: what differs between two charts, and which lines of their texts cause it.

use crate::answer::Answer;
use crate::bounded::said;
use crate::causes::{causes, Alone};
use crate::compare_json::json;
use crate::compare_words::words;
use crate::differing::{differing, Differing};
use crate::due::Due;
use crate::fact::Saying;
use crate::findings::Findings;
use crate::known::Known;
use crate::lack::Lack;
use crate::matched::{matched, Classed, Matched};
use crate::source::Source;
use crate::statements::statements;
use crate::texted::texted;
use crate::totals::Totals;
use crate::trouble::Trouble;
use std::borrow::Cow;

pub struct Comparison<'a> {
    pub one: Half<'a>,
    pub other: Half<'a>,
    pub nodes: Matched,
    /// Each with what it causes alone.
    pub lines: Vec<(Differing<'a>, Alone)>,
}

/// One of the two charts.
pub struct Half<'a> {
    pub findings: &'a Findings<'a>,
    /// Its text, or one that says the same where it came as bytes.
    pub source: Cow<'a, Source>,
    pub totals: Result<Totals<'a>, Lack>,
    /// The verdict on its deadline, where it has a clock and one.
    pub due: Option<Due<'a>>,
}

pub fn compare(one: &Known, other: &Known, hit: Option<u16>, miss: Option<u16>) -> Result<Answer, Trouble> {
    let findings = [Findings::of(one)?, Findings::of(other)?];
    let said = [said(&findings[0]), said(&findings[1])];
    let half = |place: usize| Half::of(&findings[place], said[place].as_deref(), hit, miss);
    let (one, other) = (half(0)?, half(1)?);
    let [of_one, of_other] = [&one, &other].map(|half| statements(&half.source.text));
    let lines = differing(&of_one, &of_other);
    let causes = causes(&one, &other, &lines, hit, miss);
    let comparison = Comparison {
        nodes: matched(one.classed(), other.classed()),
        lines: lines.into_iter().zip(causes).collect(),
        one,
        other,
    };
    Ok(Answer::new(words(&comparison), json(&comparison)))
}

impl<'a> Comparison<'a> {
    pub fn halves(&self) -> [&Half<'a>; 2] {
        [&self.one, &self.other]
    }
}

impl<'a> Half<'a> {
    /// Costs at the call that are refused are a fault of the call; that a chart has no totals is not.
    fn of(
        findings: &'a Findings<'a>,
        said: Option<&'a [Saying]>,
        hit: Option<u16>,
        miss: Option<u16>,
    ) -> Result<Half<'a>, Trouble> {
        let known = findings.known;
        let totals = match Totals::of(findings, said, hit, miss) {
            Err(refused @ Trouble::Refused { .. }) => return Err(refused),
            totals => totals.map_err(|trouble| Lack::of(known, &trouble)),
        };
        let of_bytes = || Source {
            file: known.file.clone(),
            text: texted(known),
        };
        let source = known.text.as_ref().map(|text| Cow::Borrowed(&text.source));
        Ok(Half {
            findings,
            source: source.unwrap_or_else(|| Cow::Owned(of_bytes())),
            totals,
            due: Due::of(findings, hit, miss).ok(),
        })
    }

    pub fn known(&self) -> &'a Known {
        self.findings.known
    }

    /// Whether its deadline is met, where there is a verdict.
    pub fn met(&self) -> Option<bool> {
        self.due.as_ref().map(Due::met)
    }

    pub fn is_of_bytes(&self) -> bool {
        self.known().text.is_none()
    }

    pub fn classed(&self) -> Classed<'_> {
        Classed {
            known: self.known(),
            classes: &self.findings.analysis.classes,
        }
    }

    /// The totals of floors and ceilings alone.
    pub fn plain(&self) -> Result<veilbuzz::Totals, Lack> {
        let plain = self.totals.as_ref().map_err(Lack::clone)?.plain.as_ref();
        plain
            .map(|plain| plain.totals)
            .ok_or_else(|| Lack::of_visits(self.known()))
    }
}
