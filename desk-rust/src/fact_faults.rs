//! Faults of the lines of facts, and what is meant by what was written.

use crate::expect::unexpected;
use crate::fact::LARGEST;
use crate::lexer::Token;
use crate::number::{told, Placed};
use crate::problem::Problem;

const SIGN_MAY: &str = "'+' or '-' and another node, or '<=', '>=' or '=' and a number";
const BOTH_SIDES: &str = "bring all nodes before the sign: 'fact a - b <= 0' says that a is at most b";

/// What is to be done with nodes behind the sign.
pub fn both_sides(problem: Problem) -> Problem {
    Problem {
        mend: Some(BOTH_SIDES.into()),
        ..problem
    }
}

/// What is to be done with a number and a name in one word, as `2a`.
pub fn joined(token: Token, problem: Problem) -> Problem {
    let digits = token.text.find(|letter: char| !letter.is_ascii_digit());
    let (number, name) = token.text.split_at(digits.unwrap_or(token.text.len()));
    match (problem.code, name.starts_with('_')) {
        ("not-a-number", false) => Problem {
            mend: Some(format!(
                "write '{} {}', if it is a number and a node",
                told(number),
                told(name)
            )),
            ..problem
        },
        _ => problem,
    }
}

/// That no sign of a fact stands where one has to.
pub fn no_sign(token: Token) -> Problem {
    let mend = match token.text {
        "<" => Some("write '<='; what is less than 10 is at most 9".into()),
        ">" => Some("write '>='; what is more than 10 is at least 11".into()),
        "," => Some("write '+'".into()),
        _ => None,
    };
    unexpected(token, SIGN_MAY, mend)
}

/// A number of a fact, if it is in its range.
pub fn short(number: Placed<u64>) -> Result<Placed<i64>, Problem> {
    let Placed { value, span } = number;
    match i64::try_from(value) {
        Ok(value) if value <= LARGEST => Ok(Placed { value, span }),
        _ => Err(Problem {
            code: "number-past-its-width",
            span,
            found: format!("{value} is too large for a fact"),
            may: format!("a number from 0 to {LARGEST}"),
            mend: None,
        }),
    }
}
