//! Deadlines: figures and verdicts are those of the proved function wherever that rounds nothing, and are never milder.

use crate::json::{read, Json};
use crate::place::Place;
use crate::times::time;
use crate::totals::drawn;
use crate::trying::made;
use charts::random::Random;
use desk::again::never_again;
use desk::deadline::deadline;
use desk::findings::Findings;
use desk::known::{Clock, Known, Limits};
use desk::trouble::{Trouble, ANSWERED, NOT_MET};
use reports::each::each;
use std::sync::atomic::{AtomicUsize, Ordering};
use veilbuzz::{Analysis, Bounds, ClockSheet, Deadline, Judged, Refusal};

/// What the proved function says, asked directly.
fn direct(known: &Known) -> Result<Judged, Refusal> {
    let analysis = Analysis::of(&known.chart)?;
    let visits = known.nodes.iter().map(|node| node.visits.expect("each has its visits"));
    let (floors, ceilings): (Vec<u16>, Vec<u16>) = visits.map(|visits| (visits.floor, visits.ceiling)).unzip();
    let bounds = Bounds {
        floors: &floors,
        ceilings: &ceilings,
    };
    let Clock { period, overhead } = known.clock.expect("there is a clock");
    let sheet = ClockSheet {
        period: period.binary64(),
        overhead: overhead.binary64(),
    };
    let Limits { earliest, latest } = known.limits.expect("there is a deadline");
    let latest = latest.binary64();
    let limits = match earliest {
        None => Deadline::Latest(latest),
        Some(earliest) => Deadline::Window {
            earliest: earliest.binary64(),
            latest,
        },
    };
    let costs = known.costs.expect("there are costs");
    veilbuzz::deadline(&known.chart, analysis.table(), costs, bounds, sheet, limits)
}

/// Visits such as a walk may have, as far as the desk looks at that: no node is barred, and none has to be visited twice that cannot be.
fn walked(known: &mut Known) {
    for visits in known.nodes.iter_mut().filter_map(|node| node.visits.as_mut()) {
        visits.ceiling = visits.ceiling.max(1);
    }
    let never_again = never_again(&Findings::of(known).unwrap_or_else(|trouble| panic!("{}", trouble.words())));
    for node in never_again {
        known.nodes[node].visits.as_mut().expect("each has its visits").floor = 1;
    }
}

/// A time in eighths of a microsecond, or in any decimal digits.
fn a_time(random: &mut Random, eighths: bool) -> String {
    match eighths {
        true => format!(
            "{}.{} us",
            random.below(5_000),
            ["0", "125", "25", "375", "5", "625", "75", "875"][random.below(8) as usize]
        ),
        false => format!("{}.{:03} us", random.below(5_000), random.below(1_000)),
    }
}

fn figure(json: &Json, side: &str) -> f64 {
    json.at(side).at("figure").text().parse().expect("a figure is a number")
}

#[test]
fn verdicts_are_those_of_the_proved_function_where_it_rounds_nothing_and_never_milder() {
    let [met, unmet, refused] = [(); 3].map(|()| AtomicUsize::new(0));
    let count = |of: &AtomicUsize| of.fetch_add(1, Ordering::Relaxed);
    let seeds: Vec<u64> = (0..600).collect();
    each(&seeds, |seed| {
        let mut random = Random::new(*seed);
        let mut known = drawn(&mut random, false);
        walked(&mut known);
        let eighths = random.once_in(2);
        let period = ["0.125 us", "0.5 us", "2 us"][random.below(3) as usize];
        let period = if eighths {
            period.to_string()
        } else {
            format!("0.{:03} us", random.below(1_000))
        };
        known.clock = Some(Clock {
            period: time(&period),
            overhead: time(&a_time(&mut random, eighths)),
        });
        let earliest = random.once_in(3).then(|| time(&a_time(&mut random, eighths)));
        let latest = match random.once_in(2) {
            true => time(&a_time(&mut random, eighths)),
            false => time("900 s"),
        };
        known.limits = Some(Limits { earliest, latest });
        match (deadline(&known, None, None), direct(&known)) {
            (Ok(answer), Ok(judged)) => {
                let json = read(&answer.json().to_string());
                let told = json.at("met") == &Json::Bool(true);
                count(if told { &met } else { &unmet });
                assert_eq!(answer.status(), if told { ANSWERED } else { NOT_MET });
                assert!(judged.met || !told, "milder: {json:?}");
                if eighths {
                    assert_eq!(told, judged.met, "{json:?}");
                    assert_eq!([figure(&json, "low"), figure(&json, "high")], [judged.low, judged.high]);
                }
                let near = |one: f64, other: f64| (one - other).abs() <= 1e-12 * other.abs();
                assert!(near(figure(&json, "low"), judged.low) && near(figure(&json, "high"), judged.high));
            }
            (Err(Trouble::Refused { refusal, .. }), Err(direct)) => {
                assert_eq!(refusal, direct);
                count(&refused);
            }
            (answer, direct) => panic!(
                "{:?} and {direct:?}",
                answer
                    .map(|answer| answer.words(false))
                    .map_err(|trouble| trouble.words())
            ),
        }
    });
    for (of, least) in [(&met, 50), (&unmet, 50), (&refused, 5)] {
        assert!(
            of.load(Ordering::Relaxed) >= least,
            "too few: {met:?} {unmet:?} {refused:?}"
        );
    }
}

#[test]
fn a_build_is_failed_by_a_deadline_that_is_not_met() {
    let place = Place::new("due");
    let ended = |line: &str| place.run(line).status;
    assert_eq!(ended("./desk deadline charts/winch-swapped.txt"), 0);
    assert_eq!(ended("./desk deadline charts/winch-as-built.txt"), 3);
    assert_eq!(ended("./desk deadline charts/winch-as-built.txt --json"), 3);
    assert_eq!(ended("./desk deadline charts/loop.txt"), 1);
    assert_eq!(ended("./desk deadline charts/no-such.txt"), 2);
}

/// By visits alone the branch comes to 9.75 us, with its fact to 8.5.
#[test]
fn with_facts_the_certified_bound_counts() {
    let place = Place::new("due-facts");
    let text = "desk-rust/tests/golden/texts/due-by-facts.txt";
    let with = place.run(&format!("./desk deadline --json {text}"));
    let json = read(&with.out);
    assert_eq!((with.status, json.at("high").at("by").text()), (0, "bound"));
    assert_eq!(json.at("high").at("figure").text(), "8.5");
    let without = place.run(&format!("grep -v ^fact {text} | ./desk deadline --json -"));
    let json = read(&without.out);
    assert_eq!((without.status, json.at("high").at("by").text()), (3, "total"));
    assert_eq!(json.at("high").at("figure").text(), "9.75");
}

/// A text of three nodes with these visits and facts; the second loops on itself.
fn of_three(visits: [&str; 3], more: &str) -> String {
    let [a, b, c] = visits;
    format!(
        "cache line 16 sets 1 ways 2 start empty\ncost hit 1 miss 10\nclock period 1 us overhead 0 us\ndeadline latest 900 s\nentry a\n\
         a: -> b {a}\nb: read 0x0 -> b, c {b}\nc: read 0x0 {c}\n{more}"
    )
}

/// Of walks that there are not everything can be said.
#[test]
fn there_is_no_verdict_on_visits_that_no_walk_has() {
    let judged = |visits, more| deadline(&made(&of_three(visits, more)), None, None);
    let untold = |visits, more, why: &str| match judged(visits, more) {
        Err(Trouble::Unanswered { mend, .. }) => assert!(mend.contains(why), "{mend}"),
        _ => panic!("{visits:?} {more}"),
    };
    untold(
        ["visits 0", "visits 1", "visits 1"],
        "",
        "every walk visits its entry, a, and its visits are 0",
    );
    untold(
        ["visits 1", "visits 0", "visits 1"],
        "",
        "no walk comes to c but through nodes whose visits are 0",
    );
    untold(["visits 2", "visits 9", "visits 0..1"], "", "no walk comes twice to a");
    untold(
        ["visits 1", "visits 1..9", "visits 1"],
        "fact 2 b = 5\nfact b <= 2\n",
        "no walk keeps all facts",
    );
    untold(
        ["visits 1", "visits 1..9", "visits 1"],
        "fact b >= 10\n",
        "no walk keeps all facts",
    );
    for visits in [
        ["visits 1", "visits 0..9", "visits 0..1"],
        ["visits 1", "visits 0", "visits 0"],
    ] {
        assert!(
            judged(visits, "").is_ok_and(|answer| answer.status() == ANSWERED),
            "{visits:?}"
        );
    }
}
