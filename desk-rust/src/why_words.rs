//! Why a node's touches have their classes, in sentences.

use crate::ages::Ages;
use crate::cache::write_heading;
use crate::paint::{Colour, Painted};
use crate::reference::{reference, Reference};
use crate::touches::Touch;
use crate::why::{Reasons, Why};
use crate::why_arrows::{arrived, no_room};
use crate::why_kept::stays;
use crate::why_since::touched_since;
use crate::words::{block, counted};
use veilbuzz::Class;

pub fn words(why: &Why) -> Painted {
    let mut out = Painted::default();
    write_heading(why.findings.known, &mut out);
    out.line("");
    match reference(why.findings.node(why.node)) {
        Some(reference) => out.line(referring(why, &reference)),
        None => out.line(format!(
            "{} is a bare step: it touches nothing.",
            why.findings.name(why.node)
        )),
    }
    match why.findings.analysis.classes[why.node][0] {
        Class::Unreached => unreached(why, &mut out),
        Class::None => classed(
            Class::None,
            "there is nothing to hit or to miss, and no age changes.",
            &mut out,
        ),
        _ => why.touches.iter().for_each(|touch| explained(why, touch, &mut out)),
    }
    out
}

/// What a node reads or writes, and where in the cache that is.
fn referring(why: &Why, reference: &Reference) -> String {
    let place = |touch: &Touch| format!("block {} in set {}", block(touch.block), touch.set);
    let places: Vec<String> = why.findings.touches[why.node].iter().map(place).collect();
    let (name, verb, what) = (why.findings.name(why.node), reference.verb, reference.what());
    let ways = counted(why.findings.known.header.ways, "way");
    match places.as_slice() {
        [first, second] => {
            format!("{name} {verb}s {what}: {first}, and over the end of the line {second}. A set has {ways}.")
        }
        _ => format!("{name} {verb}s {what}: {}, which has {ways}.", places.concat()),
    }
}

/// A paragraph that begins with a class.
fn classed(class: Class, sentence: &str, out: &mut Painted) {
    out.line("");
    out.piece(class.to_string(), Colour::of(class));
    out.line(format!(": {sentence}"));
}

fn unreached(why: &Why, out: &mut Painted) {
    classed(Class::Unreached, "no walk comes here.", out);
    let name = why.findings.name(why.node);
    out.line(match why.unreached_sources().as_slice() {
        [] => format!("No arrow leads to {name}."),
        [from] => format!(
            "One arrow leads to {name}, and it is from {}, which is unreached too.",
            why.findings.name(*from)
        ),
        from => {
            let names = why.findings.names(from, "and");
            format!("The arrows that lead to {name} are from {names}, which are unreached too.")
        }
    });
}

fn explained(why: &Why, reasons: &Reasons, out: &mut Painted) {
    let ways = why.findings.known.header.ways;
    let Touch { block: number, .. } = reasons.touch;
    let when = match reasons.place {
        0 => "on arrival",
        _ => "after the first touch",
    };
    if why.touches.len() > 1 {
        let which = ["first", "second"][reasons.place];
        out.line("");
        out.piece(
            format!("The {which} touch, block {}", block(number)),
            Some(Colour::Bold),
        );
        out.line("");
    }
    let sentence = match reasons.class {
        Class::Hit => format!("{when} the block is always there."),
        Class::Miss => format!("{when} the block is never there."),
        Class::Kept => {
            format!("{when} the block may be there, and may not; on a walk that has touched it before, it is.")
        }
        _ => format!("{when} the block may be there, and may not."),
    };
    classed(reasons.class, &sentence, out);
    match reasons.before {
        Some(ages) => aged(ages, ways, out),
        None => out.line(format!("  Its ages {when} {}.", no_room())),
    }
    out.line("");
    arrived(why, reasons, out);
    out.line("");
    touched_since(why.findings, reasons.touch, &reasons.since, out);
    stays(reasons, ways, out);
    if reasons.class == Class::Unsure && by_some_way(why, reasons) {
        out.line("");
        out.line("By one way it is always there. In a loop, peeling the first turn off may tell the ways apart: docs/FROM-C.md.");
    }
}

/// Whether the block is always there where a walk comes by one way.
fn by_some_way(why: &Why, reasons: &Reasons) -> bool {
    let ways = why.findings.known.header.ways;
    let arrivals = why.arrivals.iter().flatten();
    arrivals
        .map(|arrival| arrival.ages[reasons.place])
        .any(|ages| usize::from(ages.must) < ways)
}

/// Two ages, each with what it means in a set of so many ways.
fn aged(Ages { must, may }: Ages, ways: usize, out: &mut Painted) {
    let oldest = match usize::from(must) < ways {
        true => format!("at the oldest it is in place {must}"),
        false => "at the oldest it is not there".into(),
    };
    let youngest = match usize::from(may) < ways {
        true => format!("at the youngest it is in place {may}"),
        false => "even at the youngest it is not there".into(),
    };
    let places = match ways {
        1 => "age 0 is the one place in the set".into(),
        2 => "ages 0 and 1 are the places in the set, 0 the youngest".into(),
        ways => format!("ages 0 to {} are the places in the set, 0 the youngest", ways - 1),
    };
    out.line(format!("  must age {must}: {oldest}."));
    out.line(format!("  may age {may}: {youngest}."));
    out.line(format!("  ({places}; age {ways} means that it is not there)"));
}
