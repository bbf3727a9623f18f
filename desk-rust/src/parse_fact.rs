//! The lines of facts, `fact` and `loop`: sums of visits, and what they are held to. They are read once all nodes are known.

use crate::draft::{Draft, Name};
use crate::expect::{a_name, a_number, across, the_end, unexpected, unexpected_word};
use crate::fact::{Fact, Saying, FACTS, LARGEST};
use crate::fact_faults::{both_sides, joined, no_sign, short};
use crate::lexer::{Kind, Line};
use crate::number::{told, Placed};
use crate::problem::{Problem, Problems};
use crate::resolve::node_number;
use crate::source::Span;
use std::collections::BTreeMap;

const TERM_MAY: &str = "the name of a node, or a number and the name of a node";
const PER_MAY: &str = "the name of a node that is visited once each time that the loop begins";

/// What the lines of facts say. What is wrong is put to the problems, and one fault of a line at most beside its names.
pub fn facts(draft: &Draft, problems: &mut Problems) -> Vec<Saying> {
    let mut sayings = vec![];
    for (word, rest) in draft.facts.iter().take(FACTS) {
        let mut reader = Reader {
            draft,
            problems: &mut *problems,
            rest: *rest,
            left: BTreeMap::new(),
        };
        let read = match word.text {
            "loop" => reader.looped(word.span),
            _ => reader.fact(word.span),
        };
        match read {
            Ok(saying) => sayings.push(saying),
            Err(problem) => problems.push(problem),
        }
        if problems.are_too_many() {
            return sayings;
        }
    }
    if let Some((word, _)) = draft.facts.get(FACTS) {
        problems.push(Problem {
            code: "too-many-facts",
            span: word.span,
            found: format!("this is one fact too many; there are {} in all", draft.fact_count),
            may: format!("at most {FACTS} lines 'fact' and 'loop'"),
            mend: Some("leave those out that carry no weight: './desk totals' tells which do".into()),
        });
    }
    sayings
}

/// A line as it is read: what is left of it, and what its nodes have been given so far.
struct Reader<'a, 'b> {
    draft: &'b Draft<'a>,
    problems: &'b mut Problems,
    rest: Line<'a>,
    left: BTreeMap<usize, i64>,
}

impl<'a> Reader<'a, '_> {
    /// `fact a + 2 b <= 10`
    fn fact(&mut self, word: Span) -> Result<Saying, Problem> {
        let mut times = self.minus();
        let sign = loop {
            self.term(times)?;
            let sign = self.rest.take();
            times = match sign.kind {
                Kind::Plus => 1,
                Kind::Minus => -1,
                Kind::AtMost | Kind::AtLeast | Kind::Equals => break sign.kind,
                _ => return Err(no_sign(sign)),
            };
        };
        let times = self.minus();
        let limit = self.limit()?;
        self.end()?;
        let at_most = Fact {
            coefficients: self.left.clone(),
            limit: times * limit.value,
        };
        let at_least = at_most.turned();
        Ok(Saying {
            span: across(word, limit.span),
            visits_of: None,
            at_most: (sign != Kind::AtLeast).then_some(at_most),
            at_least: (sign != Kind::AtMost).then_some(at_least),
        })
    }

    /// `loop body at most 10 per head`
    fn looped(&mut self, word: Span) -> Result<Saying, Problem> {
        let node = a_name(&mut self.rest, "the name of a node of the loop")?;
        self.word("at", "'at most', a number, 'per' and a node")?;
        self.word("most", "'most', a number, 'per' and a node")?;
        let count = short(a_number(&mut self.rest, "how often at the most, a number")?)?;
        self.word("per", "'per' and a node")?;
        let per = a_name(&mut self.rest, PER_MAY)?;
        if node.value == per.value {
            return Err(Problem {
                code: "loop-per-itself",
                span: per.span,
                found: format!("'{}' is counted per visit of itself", told(per.value)),
                may: format!("another node: {PER_MAY}"),
                mend: None,
            });
        }
        self.add(1, node)?;
        self.add(-count.value, per)?;
        the_end(&mut self.rest, "the end of the line: a loop is counted per one node")?;
        Ok(Saying {
            span: across(word, per.span),
            visits_of: None,
            at_most: Some(Fact {
                coefficients: self.left.clone(),
                limit: 0,
            }),
            at_least: None,
        })
    }

    /// Whether a minus is next, as a factor; if so it is passed over.
    fn minus(&mut self) -> i64 {
        match self.rest.peek().kind {
            Kind::Minus => {
                self.rest.take();
                -1
            }
            _ => 1,
        }
    }

    /// A node, with the number before it if there is one.
    fn term(&mut self, times: i64) -> Result<(), Problem> {
        let mut count = 1;
        let token = self.rest.peek();
        if token.kind == Kind::Number {
            let read = a_number(&mut self.rest, TERM_MAY).map_err(|problem| joined(token, problem));
            count = short(read?)?.value;
        }
        let next = self.rest.peek();
        let name = match next.kind {
            Kind::AtMost | Kind::AtLeast | Kind::Equals => {
                let mend = "write the nodes first and the number last, as 'fact left + right <= 10'";
                return Err(unexpected(next, TERM_MAY, Some(mend.into())));
            }
            Kind::Other if next.text == "*" => return Err(unexpected(next, TERM_MAY, Some("leave it out".into()))),
            _ => a_name(&mut self.rest, TERM_MAY)?,
        };
        self.add(times * count, name)
    }

    /// Gives a node so much more. One that there is not is told, and the line read on.
    fn add(&mut self, times: i64, name: Name) -> Result<(), Problem> {
        if self.problems.are_too_many() {
            return Ok(());
        }
        let Some(node) = node_number(self.draft, name, self.problems) else {
            return Ok(());
        };
        let sum = self.left.entry(node as usize).or_default();
        *sum += times;
        if sum.abs() > LARGEST {
            return Err(Problem {
                code: "number-past-its-width",
                span: name.span,
                found: format!("the numbers of '{}' come to {sum} here", told(name.value)),
                may: format!("numbers that come to {LARGEST} at the most, and to -{LARGEST} at the least"),
                mend: None,
            });
        }
        if *sum == 0 {
            self.left.remove(&(node as usize));
        }
        Ok(())
    }

    /// What a sum is held to.
    fn limit(&mut self) -> Result<Placed<i64>, Problem> {
        match self.rest.peek().kind {
            Kind::Word => a_number(&mut self.rest, "a number").map_err(both_sides).and_then(short),
            _ => a_number(&mut self.rest, "a number").and_then(short),
        }
    }

    /// That nothing follows what a sum is held to.
    fn end(&mut self) -> Result<(), Problem> {
        let goes_on = matches!(self.rest.peek().kind, Kind::Word | Kind::Plus | Kind::Minus);
        let end = the_end(&mut self.rest, "the end of the line: a fact ends with one number");
        end.map_err(|problem| if goes_on { both_sides(problem) } else { problem })
    }

    fn word(&mut self, word: &str, may: &str) -> Result<(), Problem> {
        let token = self.rest.take();
        match token.kind == Kind::Word && token.text == word {
            true => Ok(()),
            false => Err(unexpected_word(token, &[word], may)),
        }
    }
}
