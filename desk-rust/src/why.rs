//! `./desk why`: why a node's touches have their classes.

use crate::ages::Ages;
use crate::answer::Answer;
use crate::arriving::{arrivals, between, meeting, Arrival};
use crate::findings::{refused_in, Findings};
use crate::known::Known;
use crate::since::{since, Since};
use crate::touches::Touch;
use crate::trouble::Trouble;
use crate::why_json::json;
use crate::why_words::words;
use veilbuzz::{Class, Refusal};

/// All that is told of a node.
pub struct Why<'a> {
    pub findings: &'a Findings<'a>,
    pub node: usize,
    /// Its touches, where a walk comes.
    pub touches: Vec<Reasons>,
    /// Where what comes to it meets: there, or at a bare step before.
    pub meeting: usize,
    /// What comes there from each origin, where that can be shown.
    pub arrivals: Option<Vec<Arrival>>,
}

/// A touch, and how it comes to its class.
pub struct Reasons {
    /// 0 of the node's first touch, 1 of its second.
    pub place: usize,
    pub touch: Touch,
    pub class: Class,
    /// The ages on arrival at the node.
    pub arrival: Ages,
    /// The ages just before the touch, by which the class goes, where they can be shown.
    pub before: Option<Ages>,
    pub since: Since,
}

/// Of one of the chart's nodes, by its number.
pub fn why(known: &Known, node: usize) -> Result<Answer, Trouble> {
    let findings = Findings::of(known)?;
    let why = Why::of(&findings, node).map_err(|refusal| refused_in(known, refusal))?;
    Ok(Answer::new(words(&why), json(&why)))
}

impl<'a> Why<'a> {
    fn of(findings: &'a Findings<'a>, node: usize) -> Result<Why<'a>, Refusal> {
        let touches = match findings.reached(node) {
            true => findings.touches[node].len(),
            false => 0,
        };
        let touches: Result<Vec<_>, Refusal> = (0..touches).map(|place| Reasons::of(findings, node, place)).collect();
        let meeting = meeting(findings, node);
        Ok(Why {
            findings,
            node,
            touches: touches?,
            meeting,
            arrivals: arrivals(findings, node, meeting)?,
        })
    }

    /// The nodes that no walk comes to, and that have an arrow to the node.
    pub fn unreached_sources(&self) -> Vec<usize> {
        let sources = self.findings.sources(self.node);
        sources.filter(|from| !self.findings.reached(*from)).collect()
    }
}

impl Reasons {
    fn of(findings: &Findings, node: usize, place: usize) -> Result<Reasons, Refusal> {
        let touch = findings.touches[node][place];
        let arrival = Ages::of(&findings.analysis, node, touch.block);
        Ok(Reasons {
            place,
            touch,
            class: findings.analysis.classes[node][place],
            arrival,
            before: match place {
                0 => Some(arrival),
                _ => between(findings, node, touch.block)?,
            },
            since: since(findings, node, place),
        })
    }
}
