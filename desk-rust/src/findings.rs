//! What the proved functions tell of a chart, at hand for an answer.

use crate::json::{list, object, Value};
use crate::known::{Known, Node};
use crate::reference::reference;
use crate::touches::{touches, Touch};
use crate::trouble::Trouble;
use crate::words::listed;
use veilbuzz::{Analysis, Class, Fields, Refusal};

pub struct Findings<'a> {
    pub known: &'a Known,
    pub analysis: Analysis,
    /// Of each node, in the order in which it makes them.
    pub touches: Vec<Vec<Touch>>,
}

/// The nodes that a node's arrows lead to.
pub fn targets(fields: &Fields) -> impl Iterator<Item = usize> {
    let targets = [fields.first, fields.second].into_iter().take(fields.outs as usize);
    targets.map(|target| target as usize)
}

/// That a proved function refuses a chart, or what is asked of it.
pub fn refused_in(known: &Known, refusal: Refusal) -> Trouble {
    Trouble::Refused {
        file: known.file.clone(),
        refusal,
    }
}

impl<'a> Findings<'a> {
    pub fn of(known: &'a Known) -> Result<Findings<'a>, Trouble> {
        let refused = |refusal| refused_in(known, refusal);
        let touches = |node: &Node| touches(&known.header, &node.fields).map_err(refused);
        Ok(Findings {
            known,
            analysis: Analysis::of(&known.chart).map_err(refused)?,
            touches: known.nodes.iter().map(touches).collect::<Result<_, Trouble>>()?,
        })
    }

    pub fn node(&self, node: usize) -> &'a Node {
        &self.known.nodes[node]
    }

    pub fn name(&self, node: usize) -> &'a str {
        &self.known.nodes[node].name
    }

    /// Names of nodes in a row, `and` or another word before the last.
    pub fn names<'b>(&self, nodes: impl IntoIterator<Item = &'b usize>, joint: &str) -> String {
        let names: Vec<&str> = nodes.into_iter().map(|node| self.name(*node)).collect();
        listed(&names, joint)
    }

    pub fn is_entry(&self, node: usize) -> bool {
        node == self.known.header.entry
    }

    /// Whether a walk comes to a node: the analysis says so by its class.
    pub fn reached(&self, node: usize) -> bool {
        self.analysis.classes[node][0] != Class::Unreached
    }

    /// The nodes with an arrow to a node, in their order.
    pub fn sources(&self, node: usize) -> impl Iterator<Item = usize> + '_ {
        let leads = move |from: &usize| targets(&self.node(*from).fields).any(|target| target == node);
        (0..self.known.nodes.len()).filter(leads)
    }

    /// A node for scripts, by number and name.
    pub fn brief_json(&self, node: usize) -> Value {
        object([("node", node.into()), ("name", self.name(node).into())])
    }

    pub fn briefs_json<'b>(&self, nodes: impl IntoIterator<Item = &'b usize>) -> Value {
        list(nodes.into_iter().map(|node| self.brief_json(*node)))
    }

    /// All that is known of a node but its touches, for scripts.
    pub fn full_json(&self, number: usize) -> Vec<(&'static str, Value)> {
        let node = self.node(number);
        let reference = reference(node);
        let to: Vec<usize> = targets(&node.fields).collect();
        vec![
            ("node", number.into()),
            ("name", node.name.as_str().into()),
            ("entry", self.is_entry(number).into()),
            (
                "does",
                reference.as_ref().map_or("step", |reference| reference.verb).into(),
            ),
            ("address", reference.as_ref().map(|reference| reference.address).into()),
            ("address_name", node.address.as_deref().into()),
            ("size", reference.as_ref().map(|reference| reference.bytes).into()),
            ("to", self.briefs_json(&to)),
            (
                "classes",
                list(self.analysis.classes[number].map(|class| class.to_string())),
            ),
        ]
    }
}
