//! From the line of the cache to the numbers of a heading.

use crate::asked::{allowed, can_be, one_of, Measure};
use crate::draft::Cache;
use crate::number::Placed;
use crate::problem::{Problem, Problems};
use veilbuzz::Heading;

/// The heading of a chart of no nodes yet, in the cache that a line says, if it is said whole and there is such a cache.
pub fn shape(cache: &Cache, problems: &mut Problems) -> Option<Heading> {
    let numbers = [
        measured(Measure::Line, cache.line, cache, problems),
        measured(Measure::Sets, cache.sets, cache, problems),
        measured(Measure::Ways, cache.ways, cache, problems),
    ];
    let [Some(line), Some(sets), Some(ways)] = numbers else {
        return None;
    };
    Some(Heading {
        line,
        sets,
        ways,
        start: cache.start? as u64,
        nodes: 0,
        entry: 0,
    })
}

/// The number of a heading for what is said: an exponent of bytes in a line and of sets, and the ways themselves.
fn number(measure: Measure, said: u64) -> Option<u64> {
    let number = match measure {
        Measure::Ways => said,
        _ if said.is_power_of_two() => u64::from(said.trailing_zeros()),
        _ => return None,
    };
    can_be(measure, number).then_some(number)
}

fn measured(measure: Measure, said: Option<Placed<u64>>, cache: &Cache, problems: &mut Problems) -> Option<u64> {
    let Placed { value, span } = said?;
    let number = number(measure, value);
    if number.is_none() {
        let numbers = allowed(measure);
        let (what, one) = match measure {
            Measure::Line => ("bytes", "a line cannot have"),
            Measure::Sets => ("sets", "a cache cannot have"),
            Measure::Ways => ("ways", "a set cannot have"),
        };
        problems.push(Problem {
            code: "no-such-cache",
            span,
            found: format!("{one} {value} {what}"),
            may: one_of(&numbers),
            mend: swapped(measure, cache).or_else(|| meant(value, &numbers, measure)),
        });
    }
    number
}

/// That sets and ways may have been swapped: a set cannot have so many ways, and the other way round there is such a cache.
fn swapped(measure: Measure, cache: &Cache) -> Option<String> {
    let (sets, ways) = (cache.sets?.value, cache.ways?.value);
    let wrong = measure != Measure::Line && number(Measure::Ways, ways).is_none();
    let fits = number(Measure::Sets, ways).is_some() && number(Measure::Ways, sets).is_some();
    (wrong && fits).then(|| format!("write 'sets {ways} ways {sets}', if the two were swapped"))
}

/// The numbers that may be meant: those next to it, and a power of two by its exponent.
fn meant(value: u64, numbers: &[u64], measure: Measure) -> Option<String> {
    let below = numbers.iter().rev().find(|number| **number < value);
    let above = numbers.iter().find(|number| **number > value);
    let near = match (below, above) {
        (Some(below), Some(above)) => format!("{below} or {above}"),
        (Some(most), None) => format!("{most} is the most"),
        (None, Some(least)) => format!("{least} is the least"),
        (None, None) => return None,
    };
    let power = u32::try_from(value).ok().and_then(|value| 1u64.checked_shl(value));
    let exponent = match power.filter(|power| measure != Measure::Ways && numbers.contains(power)) {
        Some(power) => format!(", or {power} if {value} is an exponent"),
        None => String::new(),
    };
    Some(format!("{near}{exponent}; look it up in the chip's data sheet"))
}
