//! What the facts of a text give, in words: two bounds, or why there are none, and what the high one rests on.

use crate::bounded::{Bounded, CROSSED};
use crate::certify::Uncertified;
use crate::paint::{Colour, Painted};
use crate::solver::{Unsolved, SOLVER};
use crate::table::{Side, Table};
use crate::totals::Totals;
use crate::weights_table::weights;

pub fn facts(totals: &Totals, bounded: &Bounded, out: &mut Painted) {
    out.line("");
    let sides = [("low bound", &bounded.low), ("high bound", &bounded.high)];
    let any = sides.iter().any(|(_, side)| side.is_ok());
    if any {
        out.piece("with the facts", Some(Colour::Bold));
        out.line(", by certificates that the proved function has accepted");
        out.line("");
        let mut both = Table::new([("", Side::Left), ("", Side::Right)]);
        for (name, side) in sides {
            if let Ok(certified) = side {
                both.row([name.into(), certified.bound.to_string().into()]);
            }
        }
        both.write(0, out);
    }
    let sentences = sentences(bounded);
    if any && !sentences.is_empty() {
        out.line("");
    }
    for sentence in sentences {
        out.line(sentence);
    }
    if let Ok(high) = &bounded.high {
        out.line("");
        weights(totals, bounded, high.whole.denominator, out);
    }
}

/// Why there is no bound of a side, once for both if it is the same.
pub fn sentences(bounded: &Bounded) -> Vec<String> {
    let [low, high] = [&bounded.low, &bounded.high].map(|side| side.as_ref().err());
    match (low, high) {
        (None, None) if bounded.crossed() => vec![CROSSED.into()],
        (Some(low), Some(high)) if low == high => vec![sentence("low or high bound", *low)],
        _ => [("low bound", low), ("high bound", high)]
            .into_iter()
            .filter_map(|(name, why)| Some(sentence(name, *why?)))
            .collect(),
    }
}

pub fn sentence(bound: &str, why: Uncertified) -> String {
    let reason = match why {
        Uncertified::Unsolved(Unsolved::Missing) => {
            format!("there is no {SOLVER} on PATH, which finds certificates; 'apt-get install glpk-utils' installs it")
        }
        Uncertified::Unsolved(Unsolved::Unwritten) => {
            format!("no file for {SOLVER} can be written where temporary files go; TMPDIR names that folder")
        }
        Uncertified::Unsolved(Unsolved::Failed) => {
            format!("{SOLVER} was run, and left no solution that can be read")
        }
        Uncertified::Unaccepted => {
            format!("the proved function accepts no certificate made of the numbers that {SOLVER} found")
        }
        Uncertified::Boundless => {
            format!("{SOLVER} finds a loop that the facts let go round without end")
        }
        Uncertified::Contradicting => {
            format!("{SOLVER} finds that no walk keeps all facts; they contradict one another, or the arrows")
        }
    };
    format!("no {bound} with the facts: {reason}")
}
