//! From a draft to what the writer is given: names become numbers. Every name that there is not is told.

use crate::alone::blocks_alone;
use crate::asked::{one_of, sizes};
use crate::draft::{Base, Draft, Name, Node, Reference};
use crate::near::nearest;
use crate::number::told;
use crate::problem::{Problem, Problems};
use crate::shape::shape;
use crate::source::Span;
use veilbuzz::{Fields, Heading};

/// What a text says in numbers, if all of it can be told in numbers. What is wrong is put to the problems.
pub fn resolve(draft: &Draft, end: Span, problems: &mut Problems) -> Option<(Heading, Vec<Fields>)> {
    let shape = match &draft.cache {
        Some(cache) => shape(cache, problems),
        None => {
            problems.push(no_line(
                "cache",
                "add a line 'cache line .. sets .. ways .. start ..'",
                end,
            ));
            None
        }
    };
    let entry = match draft.entry {
        Some(name) => name.and_then(|name| node_number(draft, name, problems)),
        None => {
            let first = draft.nodes.first().map_or("NODE".into(), |node| told(node.name.value));
            problems.push(no_line(
                "entry",
                &format!("add a line 'entry {first}', if the program begins there"),
                end,
            ));
            None
        }
    };
    let sizes = sizes();
    let mut all: Vec<Option<Fields>> = vec![];
    for node in &draft.nodes {
        all.push(fields(draft, node, shape, &sizes, problems));
        if problems.are_too_many() {
            return None;
        }
    }
    let heading = Heading {
        nodes: draft.count as u64,
        entry: entry?,
        ..shape?
    };
    Some((heading, all.into_iter().collect::<Option<_>>()?))
}

/// That a line is missing which every text has to have.
fn no_line(what: &str, mend: &str, end: Span) -> Problem {
    Problem {
        code: "line-missing",
        span: end,
        found: format!("the text ends without a line '{what}'"),
        may: format!("a line '{what}'; it may stand anywhere"),
        mend: Some(mend.into()),
    }
}

/// The number of the node of a name. Where there is none, that is put to the problems.
pub fn node_number(draft: &Draft, name: Name, problems: &mut Problems) -> Option<u64> {
    let number = draft.numbers.get(name.value);
    if number.is_none() && draft.count > draft.nodes.len() {
        // it may be one of the nodes that were only counted; so many the writer refuses
        return Some(0);
    }
    if number.is_none() {
        let near = nearest(name.value, draft.nodes.iter().map(|node| node.name.value));
        problems.push(Problem {
            code: "no-such-node",
            span: name.span,
            found: format!("no node is called '{}'", told(name.value)),
            may: "the name of a node, which a line 'NAME: ..' gives".into(),
            mend: Some(match near {
                Some(near) => format!("write '{near}'"),
                None => format!("add a line '{}: ..', or name another node", told(name.value)),
            }),
        });
    }
    number.map(|number| *number as u64)
}

fn fields(
    draft: &Draft,
    node: &Node,
    shape: Option<Heading>,
    sizes: &[u64],
    problems: &mut Problems,
) -> Option<Fields> {
    let targets = node
        .arrows
        .map(|arrow| arrow.map(|name| node_number(draft, name, problems)));
    let mut fields = Fields {
        kind: 0,
        address: 0,
        size: 0,
        outs: targets.iter().flatten().count() as u64,
        first: 0,
        second: 0,
    };
    if let Some(reference) = &node.reference {
        fields.kind = if reference.write { 2 } else { 1 };
        let address = address(draft, reference, problems);
        let size = size(reference, sizes, problems);
        fields.address = address?;
        fields.size = match size? {
            Some(code) => code,
            None => left_out(fields, reference, shape?, sizes, problems)?,
        };
    }
    let [first, second] = targets.map(|target| target.unwrap_or(Some(0)));
    (fields.first, fields.second) = (first?, second?);
    Some(fields)
}

fn address(draft: &Draft, reference: &Reference, problems: &mut Problems) -> Option<u64> {
    let base = match reference.base {
        Base::Number(number) => number,
        Base::Named(name) => match draft.addresses.get(name.value) {
            Some(number) => (*number)?,
            None => {
                problems.push(no_address(draft, name));
                return None;
            }
        },
    };
    let sum = base.checked_add(reference.offset.unwrap_or(0));
    if sum.is_none() {
        problems.push(Problem {
            code: "number-too-large",
            span: reference.span,
            found: "the sum is larger than any number here can be".into(),
            may: "an address of 32 bits".into(),
            mend: None,
        });
    }
    sum
}

fn no_address(draft: &Draft, name: Name) -> Problem {
    let near = nearest(name.value, draft.addresses.keys().copied());
    let is_node = draft.numbers.contains_key(name.value);
    Problem {
        code: "no-such-address",
        span: name.span,
        found: match is_node {
            true => format!("'{}' is the name of a node, and of no address", told(name.value)),
            false => format!("no address is called '{}'", told(name.value)),
        },
        may: "a number, or a name that a line 'at NAME = NUMBER' gives".into(),
        mend: Some(match near {
            Some(near) => format!("write '{near}'"),
            None => format!("add a line 'at {} = ..' with its address", told(name.value)),
        }),
    }
}

/// The size code that is said, `Some(None)` where none is.
fn size(reference: &Reference, sizes: &[u64], problems: &mut Problems) -> Option<Option<u64>> {
    let Some(said) = reference.size else {
        return Some(None);
    };
    let code = sizes.iter().position(|size| *size == said.value);
    if code.is_none() {
        problems.push(Problem {
            code: "no-such-size",
            span: said.span,
            found: format!("one reference cannot have {} bytes", said.value),
            may: one_of(sizes),
            mend: sizes
                .last()
                .filter(|largest| said.value > **largest)
                .map(|_| "a longer one is several references, one after the other, each a node of its own".to_string()),
        });
    }
    code.map(|code| Some(code as u64))
}

/// The size code of a reference that says none: any would do where all lie in one line, as the proved functions tell. Else it has to be said.
fn left_out(
    fields: Fields,
    reference: &Reference,
    shape: Heading,
    sizes: &[u64],
    problems: &mut Problems,
) -> Option<u64> {
    let largest = sizes.len() as u64 - 1;
    let touched = [0, largest].map(|size| blocks_alone(shape, Fields { size, ..fields }));
    match touched {
        // past the last address whatever its size: the writer is to refuse it
        [Err(_), _] => Some(0),
        [Ok(least), Ok(most)] if least == most => Some(0),
        _ => {
            problems.push(Problem {
                code: "size-not-said",
                span: reference.span,
                found: format!(
                    "how many bytes are meant makes a difference here: {} from 0x{:08X} on go over the end of a {}-byte line",
                    sizes[largest as usize],
                    fields.address,
                    1u64 << shape.line
                ),
                may: format!("'size' and {} behind the address", one_of(sizes)),
                mend: Some("add the size that the program's load or store has".into()),
            });
            None
        }
    }
}
