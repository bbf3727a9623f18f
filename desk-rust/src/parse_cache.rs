//! The lines of the cache and of the costs: words in any order, each with its number.

use crate::draft::{Cache, CostLine, Draft};
use crate::expect::{a_number, a_short_number, across, unexpected_word, without_sign};
use crate::lexer::{Kind, Line, Token};
use crate::number::Placed;
use crate::parse::twice;
use crate::problem::Problem;
use crate::source::Span;
use veilbuzz::Start;

const SHAPE: [&str; 4] = ["line", "sets", "ways", "start"];
const COSTS: [&str; 2] = ["hit", "miss"];
const STARTS: [&str; 2] = ["empty", "unknown"];

const SHAPE_MAY: &str = "'line', 'sets', 'ways' or 'start', each once";
const COSTS_MAY: &str = "'hit' and a number, and 'miss' and a number";
const START_MAY: &str = "'unknown' (the cache may hold anything at the start) or 'empty' (it holds nothing)";

pub fn cache(draft: &mut Draft, span: Span, rest: &mut Line) -> Result<(), Problem> {
    let mut said = Cache::default();
    let second = draft.cache.is_some();
    let read = each(rest, |word, rest| shape(&mut said, word, rest));
    let missing = missing(&said, rest.peek().span);
    draft.cache.get_or_insert(said);
    read?;
    if second {
        return Err(twice("cache", span));
    }
    missing.map_or(Ok(()), Err)
}

pub fn costs(draft: &mut Draft, span: Span, rest: &mut Line) -> Result<(), Problem> {
    let (mut hit, mut miss) = (None, None);
    each(rest, |word, rest| {
        let slot = match word.text {
            "hit" => &mut hit,
            "miss" => &mut miss,
            _ => return Err(no_word(word, &COSTS, COSTS_MAY)),
        };
        put(slot, word, a_short_number(rest, "what it costs, a number")?.value)
    })?;
    let end = rest.peek();
    let (Some(hit), Some(miss)) = (hit, miss) else {
        let word = if hit.is_none() { "hit" } else { "miss" };
        return Err(not_whole("costs-not-whole", end.span, "the costs are", word, None));
    };
    let costs = CostLine {
        span: across(span, end.span),
        hit,
        miss,
    };
    match draft.costs.replace(costs) {
        None => Ok(()),
        Some(_) => Err(twice("cost", span)),
    }
}

/// Reads word after word of a line, each with what belongs to it.
pub fn each(rest: &mut Line, mut read: impl FnMut(Token, &mut Line) -> Result<(), Problem>) -> Result<(), Problem> {
    loop {
        match rest.peek().kind {
            Kind::End => return Ok(()),
            _ => read(rest.take(), rest)?,
        }
    }
}

/// That a token is none of the words of a line in which no sign stands between them.
pub fn no_word(token: Token, words: &[&str], may: &str) -> Problem {
    let problem = unexpected_word(token, words, may);
    Problem {
        mend: problem.mend.or_else(|| without_sign(token)),
        ..problem
    }
}

/// Keeps what a word says, if it has not been said before.
pub fn put<T>(slot: &mut Option<T>, word: Token, value: T) -> Result<(), Problem> {
    match slot.replace(value) {
        None => Ok(()),
        Some(_) => Err(twice(word.text, word.span)),
    }
}

fn shape(said: &mut Cache, word: Token, rest: &mut Line) -> Result<(), Problem> {
    let mut counted = |slot: &mut Option<Placed<u64>>, what| put(slot, word, a_number(rest, what)?);
    match word.text {
        "line" => counted(&mut said.line, "how many bytes a line has"),
        "sets" => counted(&mut said.sets, "how many sets the cache has"),
        "ways" => counted(&mut said.ways, "how many ways a set has"),
        "start" => {
            let token = rest.take();
            let start = match token.text {
                "empty" => Start::Empty,
                "unknown" => Start::Unknown,
                _ => return Err(no_word(token, &STARTS, START_MAY)),
            };
            put(&mut said.start, word, start)
        }
        _ => Err(no_word(word, &SHAPE, SHAPE_MAY)),
    }
}

/// That a cache is not said whole. None of it stands for itself: a wrong one makes every answer wrong.
fn missing(said: &Cache, end: Span) -> Option<Problem> {
    let (word, mend) = if said.line.is_none() {
        (
            "line",
            "add 'line' and how many bytes a line of this cache has, as 'line 16'",
        )
    } else if said.sets.is_none() {
        ("sets", "add 'sets' and how many sets this cache has, as 'sets 8'")
    } else if said.ways.is_none() {
        (
            "ways",
            "add 'ways' and how many ways a set of this cache has, as 'ways 2'",
        )
    } else if said.start.is_none() {
        (
            "start",
            "add 'start unknown', which is never wrong; 'start empty' only if nothing was in the cache before",
        )
    } else {
        return None;
    };
    Some(not_whole(
        "cache-not-whole",
        end,
        "the cache is",
        word,
        Some(mend.into()),
    ))
}

pub fn not_whole(code: &'static str, span: Span, what: &str, word: &str, mend: Option<String>) -> Problem {
    Problem {
        code,
        span,
        found: format!("{what} not told whole: '{word}' is missing"),
        may: match word {
            "start" => "'start' and 'unknown' or 'empty'".into(),
            "period" | "overhead" | "latest" => format!("'{word}' and a time, as '{word} 2 us'"),
            word => format!("'{word}' and a number"),
        },
        mend,
    }
}
