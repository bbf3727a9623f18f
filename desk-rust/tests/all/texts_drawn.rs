//! Texts, drawn: one and the same chart said in every style that the grammar has.

use crate::layout::{address as written, laid_out, number, Line};
use crate::names_drawn::{names, stem};
use charts::random::Random;
use charts::{Chart, Header, Record};
use desk::fact::{Fact, Saying};
use desk::known::{Known, Visits};
use desk::source::Span;
use std::collections::BTreeMap;
use veilbuzz::Costs;

/// A text, and what it says beside the chart.
pub struct Drawn {
    pub text: String,
    names: Vec<String>,
    visits: Vec<Option<Visits>>,
    costs: Option<Costs>,
    /// Whether each node's address is told by a name.
    named: Vec<bool>,
    facts: Vec<Saying>,
}

impl Drawn {
    /// Holds what the desk made of the text to what it says.
    pub fn expect(&self, known: &Known) {
        assert_eq!(known.costs, self.costs, "{}", self.text);
        assert_eq!(known.facts.len(), self.facts.len(), "{}", self.text);
        let said = |saying: &Saying| (saying.at_most.clone(), saying.at_least.clone());
        // lines may stand in any order
        for saying in &self.facts {
            assert!(
                known.facts.iter().any(|known| said(known) == said(saying)),
                "{}",
                self.text
            );
        }
        for (number, node) in known.nodes.iter().enumerate() {
            assert_eq!(node.name, self.names[number], "{}", self.text);
            assert_eq!(node.visits, self.visits[number], "{}", self.text);
            assert_eq!(node.address.is_some(), self.named[number], "{}", self.text);
            assert_eq!(known.named(&node.name), Some(number));
        }
    }
}

pub fn drawn(random: &mut Random, chart: &Chart) -> Drawn {
    let names = names(random, chart.records.len());
    let visits: Vec<Option<Visits>> = chart.records.iter().map(|_| visits(random)).collect();
    let costs = random.once_in(2).then(|| Costs {
        hit: short(random),
        miss: short(random),
    });
    let mut said = Said::default();
    for (number, record) in chart.records.iter().enumerate() {
        let mut line = vec![names[number].clone(), ":".into()];
        said.doing(random, chart.header, *record, &mut line);
        leading(*record, &names, &mut line);
        visited(random, visits[number], &mut line);
        said.lines.push(line);
    }
    said.others(random, chart.header, &names, costs);
    let facts = said.facts(random, &names);
    Drawn {
        text: laid_out(random, &said.lines),
        names,
        visits,
        costs,
        named: said.named,
        facts,
    }
}

/// A number of 16 bits.
fn short(random: &mut Random) -> u16 {
    random.below(1 << 16) as u16
}

fn visits(random: &mut Random) -> Option<Visits> {
    let floor = short(random);
    match random.below(3) {
        0 => None,
        1 => Some(Visits { floor, ceiling: floor }),
        _ => Some(Visits {
            floor,
            ceiling: short(random),
        }),
    }
}

fn leading(record: Record, names: &[String], line: &mut Line) {
    let targets = [record.first, record.second];
    for (sign, target) in ["->", ","].iter().zip(targets).take(record.outs as usize) {
        line.extend([sign.to_string(), names[target as usize].clone()]);
    }
}

fn visited(random: &mut Random, visits: Option<Visits>, line: &mut Line) {
    if let Some(Visits { floor, ceiling }) = visits {
        line.extend(["visits".into(), number(random, floor.into())]);
        if floor != ceiling || random.once_in(2) {
            line.extend(["..".into(), number(random, ceiling.into())]);
        }
    }
}

fn fact(random: &mut Random, names: &[String]) -> (Line, Saying) {
    let mut line: Line = vec!["fact".into()];
    let mut coefficients: BTreeMap<usize, i64> = BTreeMap::new();
    for term in 0..random.within(1, 4) {
        let (node, times) = (random.below(names.len() as u64) as usize, random.below(1 << 20));
        let minus = random.once_in(2);
        line.extend((minus || term > 0).then(|| if minus { "-" } else { "+" }.into()));
        let single = times == 1 && random.once_in(2);
        line.extend((!single).then(|| number(random, times)));
        line.push(names[node].clone());
        *coefficients.entry(node).or_default() += if minus { -(times as i64) } else { times as i64 };
    }
    coefficients.retain(|_, times| *times != 0);
    let (sign, minus, limit) = (random.below(3), random.once_in(3), random.below((1 << 24) + 1));
    line.push(["<=", ">=", "="][sign as usize].into());
    line.extend(minus.then(|| "-".into()));
    line.push(number(random, limit));
    let limit = if minus { -(limit as i64) } else { limit as i64 };
    let at_most = Fact { coefficients, limit };
    let saying = Saying {
        span: Span { start: 0, end: 0 },
        visits_of: None,
        at_least: (sign != 0).then(|| at_most.turned()),
        at_most: (sign != 1).then_some(at_most),
    };
    (line, saying)
}

/// What a text says so far.
#[derive(Default)]
struct Said {
    lines: Vec<Line>,
    addresses: Vec<(String, u64)>,
    named: Vec<bool>,
}

impl Said {
    fn doing(&mut self, random: &mut Random, header: Header, record: Record, line: &mut Line) {
        let word = match record.kind {
            0 if random.once_in(2) => "",
            0 => "step",
            1 => "read",
            _ => "write",
        };
        line.extend(Some(word.to_string()).filter(|word| !word.is_empty()));
        let named = record.kind != 0 && self.address(random, record.address, line);
        self.named.push(named);
        // one byte is what is written where no size is said: where none of them goes over the end of the line
        let length = 1 << header.line;
        let free = record.size == 0 && record.address % length + 4 <= length;
        if record.kind != 0 && !(free && random.once_in(2)) {
            line.extend(["size".into(), number(random, 1 << record.size)]);
        }
    }

    /// An address as a number, a sum, a name, or a name and a number. Whether it has a name.
    fn address(&mut self, random: &mut Random, address: u64, line: &mut Line) -> bool {
        let mut base = match random.below(3) {
            0 => address,
            1 => address.saturating_sub(random.below(300)),
            _ => random.below(address + 1),
        };
        let named = random.once_in(2);
        line.push(match named {
            true => self.name_for(random, address, &mut base),
            false => written(random, base),
        });
        if base != address || random.once_in(4) {
            line.extend(["+".into(), number(random, address - base)]);
        }
        named
    }

    /// A name to tell an address by: one that there is, if its address is not above, or a new one for the base.
    fn name_for(&mut self, random: &mut Random, address: u64, base: &mut u64) -> String {
        let place = random.below(2 * self.addresses.len() as u64 + 1) as usize;
        if let Some((name, there)) = self.addresses.get(place).filter(|(_, there)| *there <= address) {
            *base = *there;
            return name.clone();
        }
        let name = format!("{}{}", stem(random), self.addresses.len());
        self.addresses.push((name.clone(), *base));
        name
    }

    /// Lines of facts, anywhere, and what they say.
    fn facts(&mut self, random: &mut Random, names: &[String]) -> Vec<Saying> {
        let mut facts = vec![];
        for _ in 0..random.below(3) {
            let (line, saying) = fact(random, names);
            let place = random.below(self.lines.len() as u64 + 1) as usize;
            self.lines.insert(place, line);
            facts.push(saying);
        }
        facts
    }

    /// The lines that are no nodes', anywhere among those of the nodes, which stay in their order.
    fn others(&mut self, random: &mut Random, header: Header, names: &[String], costs: Option<Costs>) {
        let mut shape = [
            ["line".into(), number(random, 1 << header.line)],
            ["sets".into(), number(random, 1 << header.sets)],
            ["ways".into(), number(random, header.ways)],
            ["start".into(), ["unknown", "empty"][header.start as usize].into()],
        ];
        random.mix(&mut shape);
        let mut others = vec![
            [&["cache".into()], &shape.concat()[..]].concat(),
            vec!["entry".into(), names[header.entry as usize].clone()],
        ];
        others.extend(costs.map(|Costs { hit, miss }| {
            let mut both =
                [("hit", hit), ("miss", miss)].map(|(word, cost)| [word.into(), number(random, cost.into())]);
            random.mix(&mut both);
            [&["cost".into()], &both.concat()[..]].concat()
        }));
        for (name, address) in &self.addresses {
            others.push(vec!["at".into(), name.clone(), "=".into(), written(random, *address)]);
        }
        for line in others {
            let place = random.below(self.lines.len() as u64 + 1) as usize;
            self.lines.insert(place, line);
        }
    }
}
