//! By which arrows a block comes to a node with its ages, in sentences.

use crate::ages::Ages;
use crate::arriving::Arrival;
use crate::changed::Origin;
use crate::paint::Painted;
use crate::table::{Side, Table};
use crate::why::{Reasons, Why};
use veilbuzz::NODES;

/// What is said of what takes a chart with a node more, where there is none.
pub fn no_room() -> String {
    format!("cannot be shown: that takes a node more, and the chart has {NODES}, the most that there may be")
}

/// By which arrows the ages on arrival came.
pub fn arrived(why: &Why, reasons: &Reasons, out: &mut Painted) {
    let Ages { must, may } = reasons.arrival;
    let comes = match reasons.place {
        0 => "It comes so".into(),
        _ => format!(
            "It comes to {} with must age {must} and may age {may},",
            why.findings.name(why.node)
        ),
    };
    let comes = match why.meeting == why.node {
        true => comes,
        false => format!(
            "{} through {}, and there",
            comes.trim_end_matches(','),
            why.findings.name(why.meeting)
        ),
    };
    let Some(arrivals) = &why.arrivals else {
        return out.line(format!("By which arrows it comes {}.", no_room()));
    };
    match arrivals.as_slice() {
        [Arrival {
            origin: Origin::Start, ..
        }] => out.line(format!("{comes} from the start: walks begin here.")),
        [Arrival {
            origin: Origin::Node(from),
            ..
        }] => out.line(format!("{comes} by one arrow, from {}.", why.findings.name(*from))),
        _ => {
            let start = if why.findings.is_entry(why.meeting) {
                " from the start and"
            } else {
                ""
            };
            out.line(format!("{comes}{start} by these arrows:"));
            origins(why, reasons, arrivals).write(2, out);
        }
    }
}

/// What comes from each origin, and which of the two ages on arrival that is.
fn origins(why: &Why, reasons: &Reasons, arrivals: &[Arrival]) -> Table<4> {
    let ways = why.findings.known.header.ways;
    let mut table = Table::new([
        ("from", Side::Left),
        ("must", Side::Right),
        ("may", Side::Right),
        ("", Side::Left),
    ]);
    for arrival in arrivals {
        let from = match arrival.origin {
            Origin::Start => "(the start)",
            Origin::Node(from) => why.findings.name(from),
        };
        let ages = arrival.ages[reasons.place];
        let gives = match (ages.must == reasons.arrival.must, ages.may == reasons.arrival.may) {
            (true, true) => "; both ages are from here",
            (true, false) => "; the must age is from here",
            (false, true) => "; the may age is from here",
            (false, false) => "",
        };
        table.row([
            from.into(),
            ages.must.to_string().into(),
            ages.may.to_string().into(),
            (ages.whereabouts(ways) + gives).into(),
        ]);
    }
    table
}
