//! The verdict on a deadline, for scripts. Times are texts of decimal digits, in microseconds: nothing is rounded.

use crate::cache::Cache;
use crate::counted::{By, Counted};
use crate::due::Due;
use crate::json::{list, object, Value};
use crate::time::{microseconds, Time};
use crate::totals_json::{both, costs};

pub fn json(due: &Due) -> Value {
    let known = due.findings.known;
    object([
        ("file", known.file.as_str().into()),
        ("cache", Cache::of(&known.header).json()),
        ("costs", costs(due.costs)),
        (
            "clock",
            object([
                ("period", time(due.clock.period)),
                ("overhead", time(due.clock.overhead)),
            ]),
        ),
        (
            "deadline",
            object([
                ("earliest", due.limits.earliest.map(time).into()),
                ("latest", time(due.limits.latest)),
            ]),
        ),
        ("totals", due.totals.map(both).into()),
        ("low", counted(&due.low)),
        ("high", counted(&due.high)),
        ("met", due.met().into()),
        ("late", due.late().map(microseconds).into()),
        ("early", due.early().map(microseconds).into()),
        ("rounding_decides", due.rounding_decides().into()),
        ("why_no_bound", list(due.sentences.iter().map(String::as_str))),
    ])
}

fn time(time: Time) -> Value {
    microseconds(time.femtoseconds()).into()
}

fn counted(counted: &Counted) -> Value {
    let by = match counted.by {
        By::Total => "total",
        By::Bound => "bound",
    };
    object([
        ("by", by.into()),
        ("cycles", counted.cycles.into()),
        ("figure", microseconds(counted.figure).into()),
    ])
}
