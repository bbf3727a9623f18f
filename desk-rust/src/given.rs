//! What totals need beside a chart: costs and visits. Where some are missing it is said which, and how to say them.

use crate::known::{Known, Visits};
use crate::number::told;
use crate::trouble::Trouble;
use crate::words::listed;
use veilbuzz::{Bounds, Costs};

/// As many visits as can be said.
const ANY: Visits = Visits {
    floor: 0,
    ceiling: u16::MAX,
};

pub struct Given {
    pub costs: Costs,
    /// Whether a cost was given at the call, and not by the text.
    pub at_the_call: bool,
    /// Whether each node's visits are said. Where they are not, a node may have as many as can be said.
    pub whole: bool,
    floors: Vec<u16>,
    ceilings: Vec<u16>,
}

impl Given {
    /// A cost at the call goes before the text's.
    pub fn of(known: &Known, hit: Option<u16>, miss: Option<u16>) -> Result<Given, Trouble> {
        let at_the_call = hit.is_some() || miss.is_some();
        let hit = hit.or(known.costs.map(|costs| costs.hit));
        let miss = miss.or(known.costs.map(|costs| costs.miss));
        let whole = known.nodes.iter().all(|node| node.visits.is_some());
        // facts may say enough without the visits of each node
        let (Some(hit), Some(miss), true) = (hit, miss, whole || !known.facts.is_empty()) else {
            return Err(missing(known, hit, miss));
        };
        let visits = known.nodes.iter().map(|node| node.visits.unwrap_or(ANY));
        let (floors, ceilings) = visits.map(|visits| (visits.floor, visits.ceiling)).unzip();
        Ok(Given {
            costs: Costs { hit, miss },
            at_the_call,
            whole,
            floors,
            ceilings,
        })
    }

    pub fn bounds(&self) -> Bounds<'_> {
        Bounds {
            floors: &self.floors,
            ceilings: &self.ceilings,
        }
    }
}

/// The names of the nodes whose visits are not said.
pub fn without_visits(known: &Known) -> String {
    let nodes = known.nodes.iter().filter(|node| node.visits.is_none());
    let nodes: Vec<String> = nodes.map(|node| told(&node.name)).collect();
    listed(&nodes, "and")
}

/// That a cost or visits are missing.
fn missing(known: &Known, hit: Option<u16>, miss: Option<u16>) -> Trouble {
    let mut needs = vec![];
    let mut mends = vec![];
    if known.text.is_none() {
        mends.push("make a text of the chart, './desk text X.chart > X.txt'");
    }
    let costs = [("a hit", hit), ("a miss", miss)]
        .into_iter()
        .filter(|(_, cost)| cost.is_none());
    let costs: Vec<&str> = costs.map(|(of, _)| of).collect();
    if !costs.is_empty() {
        needs.push(format!("the cost of {}", costs.join(" and of ")));
        mends.push("add a line 'cost hit 1 miss 10', or give --hit N and --miss N");
    }
    let nodes = without_visits(known);
    if !nodes.is_empty() && known.facts.is_empty() {
        needs.push(format!("the visits of {nodes}"));
        mends.push("end each node's line with 'visits 10', or with 'visits 0..10' for none to ten");
    }
    Trouble::Unanswered {
        what: format!("{}: totals need {}", known.file, needs.join(", and ")),
        mend: mends.join("; "),
    }
}
