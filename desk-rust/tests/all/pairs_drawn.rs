//! Pairs of texts, drawn: the second is the first after some edits.

use crate::charts_drawn::of_at_most;
use crate::json::Json;
use crate::texts_drawn::drawn;
use crate::trying::{known, tried, Tried};
use charts::random::Random;
use desk::known::Known;
use desk::texted::texted;

/// Texts line by line, without what an editor puts before them.
pub type Lines = Vec<String>;

fn lines(text: &str) -> Lines {
    let text = text.strip_prefix('\u{FEFF}').unwrap_or(text);
    text.split('\n').map(String::from).collect()
}

/// A text in one style or another; or one of a chart of bytes, with costs and visits, so that there are totals.
pub fn any_text(random: &mut Random) -> Lines {
    let chart = of_at_most(random, 12);
    if random.once_in(2) {
        return lines(&drawn(random, &chart).text);
    }
    let plain = texted(&Known::of_chart("drawn", chart.bytes()).expect("the reader accepts it"));
    let mut lines = lines(&plain);
    for line in lines.iter_mut().filter(|line| line.starts_with('n')) {
        *line += &format!(" visits 0..{}", random.below(100));
    }
    lines.push("cost hit 1 miss 10".into());
    lines
}

/// A chart without its facts, whose bounds are for glpsol.
pub fn without_facts(lines: &Lines) -> Known {
    let mut known = known(lines.join("\n").as_bytes());
    known.facts.clear();
    known
}

pub fn is_chart(lines: &Lines) -> bool {
    let text = lines.join("\n");
    std::panic::catch_unwind(|| tried(text.as_bytes())).expect("no panic") == Tried::Answered
}

/// One digit otherwise, a line less, two in each other's place, a comment, a line of a node without its arrows, or a name otherwise in each line.
fn edited(random: &mut Random, lines: &Lines) -> Lines {
    let mut edited = lines.clone();
    let place = random.below(lines.len() as u64) as usize;
    match random.below(10) {
        0 => drop(edited.remove(place)),
        1 => edited.swap(place, random.below(lines.len() as u64) as usize),
        2 => edited[place] += "#",
        3 => {
            let line = &edited[place];
            edited[place] = line.split("->").next().expect("there is one").to_string();
        }
        4 => {
            if let Some((name, _)) = lines[place].split_once(':').filter(|(name, _)| !name.is_empty()) {
                let renamed = |line: &String| line.replace(name, &format!("{name}_"));
                edited = lines.iter().map(renamed).collect();
            }
        }
        _ => {
            let digits: Vec<usize> = edited[place]
                .match_indices(|sign: char| sign.is_ascii_digit())
                .map(|(at, _)| at)
                .collect();
            if !digits.is_empty() {
                let at = digits[random.below(digits.len() as u64) as usize];
                edited[place].replace_range(at..at + 1, &random.below(10).to_string());
            }
        }
    }
    edited
}

/// Some edits after one another, each of which leaves a chart.
pub fn other(random: &mut Random, one: &Lines) -> Lines {
    let mut other = one.clone();
    for _ in 0..random.within(1, 12) {
        let next = edited(random, &other);
        if is_chart(&next) {
            other = next;
        }
    }
    other
}

/// The one's lines, with these as the other has them.
pub fn mixed<'a>(one: &Lines, other: &Lines, lines: impl IntoIterator<Item = &'a Json>) -> Lines {
    let mut mixed = one.clone();
    for line in lines {
        let version = match line.at("other") {
            Json::Null => String::new(),
            version => other[version.at("line").count() - 1].clone(),
        };
        match line.at("one") {
            Json::Null => mixed.push(version),
            there => mixed[there.at("line").count() - 1] = version,
        }
    }
    mixed
}
