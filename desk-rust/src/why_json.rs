//! Why a node's touches have their classes, for scripts.

use crate::ages::Ages;
use crate::arriving::Arrival;
use crate::cache::Cache;
use crate::changed::Origin;
use crate::json::{list, object, Value};
use crate::why::{Reasons, Why};
use std::collections::BTreeSet;

pub fn json(why: &Why) -> Value {
    let known = why.findings.known;
    let mut fields = vec![
        ("file", known.file.as_str().into()),
        ("cache", Cache::of(&known.header).json()),
    ];
    fields.extend(why.findings.full_json(why.node));
    fields.push((
        "arrows_from_unreached",
        why.findings.briefs_json(&why.unreached_sources()),
    ));
    let through = (why.meeting != why.node).then(|| why.findings.brief_json(why.meeting));
    fields.push(("through", through.into()));
    fields.push(("touches", list(why.touches.iter().map(|touch| touch_json(why, touch)))));
    Value::Object(fields)
}

fn touch_json(why: &Why, reasons: &Reasons) -> Value {
    let Reasons { touch, since, .. } = reasons;
    let other = |(block, nodes): (&u32, &BTreeSet<usize>)| {
        object([
            ("block", u64::from(*block).into()),
            ("nodes", why.findings.briefs_json(nodes)),
        ])
    };
    object([
        ("block", u64::from(touch.block).into()),
        ("set", u64::from(touch.set).into()),
        ("ways", why.findings.known.header.ways.into()),
        ("class", reasons.class.to_string().into()),
        ("must", reasons.before.map(|ages| u64::from(ages.must)).into()),
        ("may", reasons.before.map(|ages| u64::from(ages.may)).into()),
        ("on_arrival", ages(reasons.arrival)),
        (
            "arrows",
            why.arrivals.as_ref().map(|all| arrows(why, all, reasons.place)).into(),
        ),
        ("last_touches", why.findings.briefs_json(&since.last)),
        ("others", list(since.others.iter().map(other))),
        ("from_start", since.from_start.into()),
        ("others_from_start", list(since.others_from_start.iter().map(other))),
    ])
}

fn ages(Ages { must, may }: Ages) -> Value {
    object([("must", u64::from(must).into()), ("may", u64::from(may).into())])
}

/// What the block of a touch comes with by each arrow. What comes from the start comes from no node.
fn arrows(why: &Why, arrivals: &[Arrival], place: usize) -> Value {
    let arrow = |arrival: &Arrival| {
        let from = match arrival.origin {
            Origin::Start => Value::Null,
            Origin::Node(node) => why.findings.brief_json(node),
        };
        let Ages { must, may } = arrival.ages[place];
        object([
            ("from", from),
            ("must", u64::from(must).into()),
            ("may", u64::from(may).into()),
        ])
    };
    list(arrivals.iter().map(arrow))
}
