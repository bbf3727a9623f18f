//! Times of a text: decimal numbers with a unit.

use crate::expect::{unexpected, unexpected_word};
use crate::lexer::{Kind, Line, Token};
use crate::number::{number, Placed};
use crate::problem::Problem;
use crate::source::Span;
use crate::time::{Time, MICROSECOND};

/// Each unit, and as a power of ten how many femtoseconds it has. The second and third look alike.
const UNITS: [(&str, usize); 6] = [
    ("us", MICROSECOND),
    ("\u{B5}s", MICROSECOND),
    ("\u{3BC}s", MICROSECOND),
    ("ns", 6),
    ("ms", 12),
    ("s", 15),
];

/// The units that are suggested.
const SUGGESTED: [&str; 4] = ["us", "ns", "ms", "s"];

const UNIT_MAY: &str = "'us' (microseconds), 'ns', 'ms' or 's'";

/// A time of a line: digits, a point and digits if need be, and a unit, with or without a space before it.
pub fn a_time(line: &mut Line, may: &str) -> Result<Placed<Time>, Problem> {
    let token = line.take();
    if token.kind != Kind::Number {
        return Err(unexpected(token, may, None));
    }
    let (whole, mut unit) = split(token);
    let mut fraction = "";
    if unit.text.is_empty() && goes_on(line, token.span, ".") {
        let point = line.take();
        let digits = line.take();
        let stands = digits.kind == Kind::Number && digits.span.start == point.span.end && !digits.text.contains('_');
        if !stands {
            return Err(unexpected(digits, "digits behind the point", None));
        }
        let (behind, rest) = split(digits);
        (fraction, unit) = (behind.text, rest);
    }
    if unit.text.is_empty() {
        unit = line.take();
    }
    let Some((_, power)) = UNITS.into_iter().find(|(name, _)| *name == unit.text) else {
        return Err(no_unit(unit));
    };
    let span = Span {
        start: token.span.start,
        end: unit.span.end,
    };
    let value = femtoseconds(number(whole)?.value, fraction, power).map_err(|found| Problem {
        code: "number-past-its-width",
        span,
        found: found.into(),
        may: "a time of 1,000 s at the most, in whole femtoseconds (0.000000001 us)".into(),
        mend: None,
    })?;
    Ok(Placed { value, span })
}

/// That a token is no unit. A comma was meant as a point.
fn no_unit(token: Token) -> Problem {
    let problem = unexpected_word(token, &SUGGESTED, UNIT_MAY);
    let mend = match token.kind {
        Kind::Comma => Some("write a point for it, as in 0.125 us".into()),
        _ => problem.mend,
    };
    Problem { mend, ..problem }
}

/// Whether a sign stands just behind a token.
fn goes_on(line: &Line, before: Span, sign: &str) -> bool {
    let next = line.peek();
    next.text == sign && next.span.start == before.end
}

/// A token's digits, and the letters behind them.
fn split(token: Token) -> (Token, Token) {
    let digits = |letter: char| letter.is_ascii_digit() || letter == '_';
    let length = token.text.find(|letter| !digits(letter)).unwrap_or(token.text.len());
    let at = token.span.start + length;
    let part = |kind, text, start, end| Token {
        kind,
        text,
        span: Span { start, end },
    };
    (
        part(Kind::Number, &token.text[..length], token.span.start, at),
        part(Kind::Word, &token.text[length..], at, token.span.end),
    )
}

/// Whole units and digits behind the point, of a unit with so many digits to a femtosecond.
fn femtoseconds(whole: u64, fraction: &str, power: usize) -> Result<Time, &'static str> {
    let fraction = fraction.trim_end_matches('0');
    if fraction.len() > power {
        return Err("this time is finer than a femtosecond");
    }
    let scaled = |value: u64, power: usize| value.checked_mul(10_u64.checked_pow(power as u32)?);
    let behind = match fraction {
        "" => Some(0),
        digits => digits
            .parse()
            .ok()
            .and_then(|value| scaled(value, power - digits.len())),
    };
    let whole = scaled(whole, power);
    let time = whole.zip(behind).and_then(|(whole, behind)| whole.checked_add(behind));
    time.and_then(Time::of).ok_or("this time is too long")
}
