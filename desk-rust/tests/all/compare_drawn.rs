//! Drawn pairs of texts, the second an edit of the first: what is told of them is what the reports and totals of both have, and what a line is
//! told to cause comes of a text in which that line alone is another.

use crate::comparing::{apart, classes, low_and_high, told};
use crate::json::Json;
use crate::pairs_drawn::{any_text, is_chart, mixed, other, without_facts, Lines};
use charts::random::Random;
use desk::known::Known;
use reports::each::each;
use std::collections::{BTreeMap, BTreeSet};
use std::sync::Mutex;

fn names(json: &Json) -> BTreeSet<&str> {
    json.list().iter().map(Json::text).collect()
}

type Classes = BTreeMap<String, Json>;

/// Each node is told once: with the classes of both reports, as one of those that are the same, or as one that the other does not have.
fn expect_classes(json: &Json, one: &Classes, other: &Classes) {
    for node in json.at("classes").list() {
        let name = node.at("name").text();
        assert_eq!((node.at("one"), node.at("other")), (&one[name], &other[name]));
    }
    assert_eq!(json.at("classes").list().len(), apart(one, other));
    let only = |here: &Classes, there: &Classes| -> BTreeSet<String> {
        here.keys().filter(|name| !there.contains_key(*name)).cloned().collect()
    };
    assert!(names(json.at("only_in_one")).into_iter().eq(only(one, other).iter()));
    assert!(names(json.at("only_in_other")).into_iter().eq(only(other, one).iter()));
    let told = ["classes", "only_in_one"].map(|field| json.at(field).list().len());
    assert_eq!(json.at("same").count() + told[0] + told[1], one.len());
}

/// A chart's classes and totals.
struct Found {
    classes: Classes,
    totals: Json,
}

impl Found {
    fn of(known: &Known) -> Found {
        Found {
            classes: classes(known),
            totals: low_and_high(known),
        }
    }

    /// Whether nothing is otherwise in the other; totals are looked at if they are to be.
    fn is(&self, other: &Found, totals: bool) -> bool {
        self.classes == other.classes && (!totals || self.totals == other.totals)
    }
}

/// What a line is told to cause is what comes of it.
fn expect_alone(line: &Json, mixed: &Lines, one: &Found, other: &Found) -> &'static str {
    let alone = line.at("alone");
    if alone.at("why_not") != &Json::Null {
        assert_eq!(alone.at("why_not").text(), "no-chart", "few lines differ");
        assert!(!is_chart(mixed), "{}", mixed.join("\n"));
        return "no chart";
    }
    let found = Found::of(&without_facts(mixed));
    let told = alone.at("classes").count();
    assert_eq!(told, apart(&one.classes, &found.classes));
    assert_eq!(alone.at("totals"), &found.totals);
    let totals = one.totals != Json::Null && other.totals != Json::Null;
    let changes = told > 0 || totals && found.totals != one.totals;
    let all = changes && found.is(other, totals);
    assert_eq!(alone.at("all"), &Json::Bool(all), "{}", mixed.join("\n"));
    match (all, told) {
        (true, _) => "all",
        (_, 0) => "no class",
        _ => "some",
    }
}

fn turned(line: &Json) -> String {
    format!("{:?} {:?}", line.at("other"), line.at("one"))
}

#[test]
fn what_is_told_of_drawn_pairs_is_so() {
    let seeds: Vec<u64> = (0..500).collect();
    let counts: Mutex<BTreeMap<&str, usize>> = Mutex::default();
    each(&seeds, |seed| {
        let mut random = Random::new(*seed + 4_711);
        let one = any_text(&mut random);
        let other = other(&mut random, &one);
        let [here, there] = [&one, &other].map(without_facts);
        let json = told(&here, &there);
        let [found_here, found_there] = [&here, &there].map(Found::of);
        expect_classes(&json, &found_here.classes, &found_there.classes);
        assert_eq!(json.at("one").at("totals"), &found_here.totals);
        assert_eq!(json.at("other").at("totals"), &found_there.totals);
        let all = json.at("lines").list();
        let with_totals = usize::from(json.at("one").at("totals") != json.at("other").at("totals"));
        *counts
            .lock()
            .expect("no other thread failed")
            .entry("totals")
            .or_default() += with_totals;
        for line in all {
            let kind = expect_alone(line, &mixed(&one, &other, [line]), &found_here, &found_there);
            *counts.lock().expect("no other thread failed").entry(kind).or_default() += 1;
        }
        // with all of them the one is the other
        let whole = classes(&without_facts(&mixed(&one, &other, all)));
        assert_eq!(whole, found_there.classes, "seed {seed}");
        // and the other way round it is the same
        let back = told(&there, &here);
        assert_eq!((back.at("one"), back.at("other")), (json.at("other"), json.at("one")));
        expect_classes(&back, &found_there.classes, &found_here.classes);
        let [mut lines, mut back] = [
            all.iter()
                .map(|line| format!("{:?} {:?}", line.at("one"), line.at("other")))
                .collect::<Vec<_>>(),
            back.at("lines").list().iter().map(turned).collect(),
        ];
        lines.sort();
        back.sort();
        assert_eq!(lines, back, "seed {seed}");
    });
    let counts = counts.into_inner().expect("no thread failed");
    for kind in ["all", "some", "no class", "no chart", "totals"] {
        assert!(counts.get(kind).is_some_and(|count| *count >= 40), "{counts:?}");
    }
}
