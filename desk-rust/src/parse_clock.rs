//! The lines of the clock and of the deadline: words in any order, each with its time.

use crate::draft::{ClockLine, DeadlineLine, Draft};
use crate::expect::across;
use crate::known::{Clock, Limits};
use crate::lexer::{Kind, Line, Token};
use crate::parse::twice;
use crate::parse_cache::{each, no_word, not_whole, put};
use crate::parse_time::a_time;
use crate::problem::Problem;
use crate::source::Span;
use crate::time::Time;

const CLOCK: [&str; 2] = ["period", "overhead"];
const LIMITS: [&str; 2] = ["earliest", "latest"];

const CLOCK_MAY: &str = "'period' and a time, and 'overhead' and a time";
const LIMITS_MAY: &str = "'latest' and a time, and before it 'earliest' and a time, if there is one";
const TIME_MAY: &str = "a time, as 0.125 us";

pub fn clock(draft: &mut Draft, span: Span, rest: &mut Line) -> Result<(), Problem> {
    let ([period, overhead], end) = times(rest, CLOCK, CLOCK_MAY)?;
    let missing = |word, mend: &str| not_whole("clock-not-whole", end, "the clock is", word, Some(mend.into()));
    let Some(period) = period else {
        return Err(missing(
            "period",
            "add how long a cycle takes, as 'period 0.125 us' at 8 MHz",
        ));
    };
    let Some(overhead) = overhead else {
        return Err(missing(
            "overhead",
            "add the time of all that is no memory reference, as 'overhead 2 us'; 'overhead 0 us' only if there is nothing else",
        ));
    };
    let line = ClockLine {
        span: across(span, end),
        clock: Clock { period, overhead },
    };
    match draft.clock.replace(line) {
        None => Ok(()),
        Some(_) => Err(twice("clock", span)),
    }
}

pub fn deadline(draft: &mut Draft, span: Span, rest: &mut Line) -> Result<(), Problem> {
    let ([earliest, latest], end) = times(rest, LIMITS, LIMITS_MAY)?;
    let Some(latest) = latest else {
        let mend = "add the latest time, as 'latest 120 us'";
        return Err(not_whole(
            "deadline-not-whole",
            end,
            "the deadline is",
            "latest",
            Some(mend.into()),
        ));
    };
    let line = DeadlineLine {
        span: across(span, end),
        limits: Limits { earliest, latest },
    };
    match draft.deadline.replace(line) {
        None => Ok(()),
        Some(_) => Err(twice("deadline", span)),
    }
}

/// The time behind each of two words, as far as they are said, and where the line ends.
fn times(rest: &mut Line, words: [&str; 2], may: &str) -> Result<([Option<Time>; 2], Span), Problem> {
    let mut said = [None, None];
    each(rest, |word, rest| {
        let Some(place) = words.iter().position(|known| *known == word.text) else {
            return Err(no_time_of(word, rest.peek(), words, may));
        };
        put(&mut said[place], word, a_time(rest, TIME_MAY)?.value)
    })?;
    Ok((said, rest.peek().span))
}

/// That a token is neither of two words. A number was meant as a time, and its word is missing, or as a rate.
fn no_time_of(token: Token, next: Token, words: [&str; 2], may: &str) -> Problem {
    let problem = no_word(token, &words, may);
    let mend = match token.kind {
        Kind::Number if next.text.ends_with("Hz") => {
            Some("write how long a cycle takes: 8 MHz is 'period 0.125 us'".into())
        }
        Kind::Number => Some(format!("write '{}' or '{}' before it", words[0], words[1])),
        _ => problem.mend,
    };
    Problem { mend, ..problem }
}
