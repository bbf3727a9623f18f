//! Facts that a walk keeps, drawn: the bounds of the desk hold of what that walk costs in a plain cache, and are no worse than the totals.

use crate::charts_drawn::of_at_most;
use crate::json::{read, Json};
use crate::trying::made;
use charts::random::Random;
use charts::sizes::touched_by;
use charts::Chart;
use desk::known::Known;
use desk::texted::texted;
use desk::totals::totals;
use reports::each::each;
use std::collections::HashMap;
use std::fmt::Write;
use std::sync::Mutex;
use veilbuzz::{read as header, Costs};

/// The nodes of a walk along the arrows, which stops anywhere.
fn walk(random: &mut Random, chart: &Chart) -> Vec<usize> {
    let mut walk = vec![chart.header.entry as usize];
    for _ in 0..random.below(60) {
        let record = chart.records[walk[walk.len() - 1]];
        match record.outs {
            0 => break,
            outs => walk.push([record.first, record.second][random.below(outs) as usize] as usize),
        }
    }
    walk
}

/// What a walk costs from an empty cache, touch by touch: of each set the blocks that it holds, the youngest last.
pub fn cost(chart: &[u8], walk: &[usize], costs: Costs) -> u64 {
    let header = header(chart).expect("the reader accepts it");
    let mut sets: HashMap<u32, Vec<u32>> = HashMap::new();
    let mut cost = 0;
    for block in walk.iter().flat_map(|node| touched_by(chart, *node)) {
        let set = sets.entry(block % (1 << header.sets)).or_default();
        let before = set.len();
        set.retain(|other| *other != block);
        cost += u64::from(if set.len() < before { costs.hit } else { costs.miss });
        set.push(block);
        if set.len() > header.ways {
            set.remove(0);
        }
    }
    cost
}

/// Lines of facts that hold of these visits, mostly close.
fn facts(random: &mut Random, visits: &[i64]) -> String {
    let mut lines = String::new();
    for _ in 0..random.within(1, 4) {
        let (mut terms, mut sum) = (vec![], 0);
        for _ in 0..random.within(1, 4) {
            let (node, times) = (random.below(visits.len() as u64) as usize, random.within(1, 12) as i64);
            let times = if random.once_in(3) { -times } else { times };
            sum += times * visits[node];
            terms.push(format!("{} {} n{node}", if times < 0 { '-' } else { '+' }, times.abs()));
        }
        let terms = terms.join(" ").trim_start_matches("+ ").to_string();
        let more = if random.once_in(3) { random.below(40) as i64 } else { 0 };
        let held = match random.below(4) {
            0 => format!("= {sum}"),
            1 => format!(">= {}", sum - more),
            _ => format!("<= {}", sum + more),
        };
        let _ = writeln!(lines, "fact {terms} {held}");
    }
    lines
}

/// The chart in words, with facts, and with visits of some of the nodes or of all.
fn text(random: &mut Random, chart: &Chart, visits: &[i64]) -> String {
    let known = Known::of_chart("drawn", chart.bytes()).expect("the reader accepts it");
    let seldom = random.below(3);
    let mut text = String::new();
    for line in texted(&known).lines() {
        let node = line
            .split_once(':')
            .and_then(|(name, _)| name.strip_prefix('n')?.parse::<usize>().ok());
        let said = node.filter(|_| !random.once_in(1 + seldom) || seldom == 0).map(|node| {
            let floor = visits[node] - (random.below(3) as i64).min(visits[node]);
            format!(" visits {floor}..{}", visits[node] + random.below(9) as i64)
        });
        let _ = writeln!(text, "{line}{}", said.unwrap_or_default());
    }
    text + &facts(random, visits)
}

/// A bound of a side, if there is one.
fn bound(json: &Json, side: &str) -> Option<u64> {
    let side = json.at("facts").at(side);
    match side.at("bound") {
        Json::Null => {
            assert_eq!(
                side.at("why_not").text(),
                "no-bound",
                "a walk keeps all facts, and the solver is there"
            );
            None
        }
        bound => Some(bound.number()),
    }
}

#[test]
fn bounds_hold_of_walks_that_keep_the_facts_and_are_no_worse_than_the_totals() {
    let seeds: Vec<u64> = (0..300).collect();
    let counts = Mutex::new([0; 4]);
    each(&seeds, |seed| {
        let mut random = Random::new(*seed + 3_131);
        let chart = of_at_most(&mut random, 12);
        let walk = walk(&mut random, &chart);
        let mut visits = vec![0; chart.records.len()];
        walk.iter().for_each(|node| visits[*node] += 1);
        let (hit, more) = (random.below(20) as u16, random.below(40) as u16);
        let costs = Costs { hit, miss: hit + more };
        let text = text(&mut random, &chart, &visits);
        let answer = totals(&made(&text), Some(costs.hit), Some(costs.miss));
        let answer = answer.unwrap_or_else(|trouble| panic!("seed {seed}: {}\n{text}", trouble.words()));
        let json = read(&answer.json().to_string());
        let cost = cost(&chart.bytes(), &walk, costs);
        let (low, high) = (bound(&json, "low").expect("a low one always is"), bound(&json, "high"));
        assert!(
            low <= cost && high.is_none_or(|high| cost <= high),
            "seed {seed}: {low} {cost} {high:?}\n{text}"
        );
        let plain = json.at("totals");
        let mut told = [high.is_some(), high == Some(cost), false, false];
        if *plain != Json::Null {
            let [least, most] = ["low", "high"].map(|side| plain.at(side).number());
            let high = high.expect("ceilings give one");
            assert!(
                least <= low && high <= most,
                "seed {seed}: {least} {low} {high} {most}\n{text}"
            );
            (told[2], told[3]) = (true, high < most);
        }
        let mut counts = counts.lock().expect("no other thread failed");
        counts
            .iter_mut()
            .zip(told)
            .for_each(|(count, told)| *count += usize::from(told));
    });
    let counts = counts.into_inner().expect("no thread failed");
    // with a high bound, with one that the walk attains, with totals too, with a bound below these
    assert!(
        counts[0] >= 100 && counts[1] >= 20 && counts[2] >= 50 && counts[3] >= 30,
        "{counts:?}"
    );
}
