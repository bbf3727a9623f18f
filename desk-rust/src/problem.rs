//! Faults of a text: each is told at its place, with the line shown, what may stand there and the likeliest mend.

use crate::json::{object, Value};
use crate::source::{Source, Span};

/// A fault. `code` names its kind, for scripts.
#[derive(Clone, Debug, PartialEq, Eq)]
pub struct Problem {
    pub code: &'static str,
    pub span: Span,
    /// What was found, in a sentence.
    pub found: String,
    /// What may stand there.
    pub may: String,
    pub mend: Option<String>,
}

/// The first faults that were found, and whether there are others.
#[derive(Default)]
pub struct Problems {
    first: Vec<Problem>,
    more: bool,
}

/// So many are told in one run.
const TOLD: usize = 20;

/// So many letters of a line are shown; of a longer one so many before the place and after it.
pub const SHOWN: usize = 140;
const AROUND: [usize; 2] = [60, 80];

impl Problems {
    pub fn one(problem: Problem) -> Problems {
        Problems {
            first: vec![problem],
            more: false,
        }
    }

    pub fn push(&mut self, problem: Problem) {
        if self.first.len() < TOLD {
            self.first.push(problem);
        } else {
            self.more = true;
        }
    }

    pub fn is_empty(&self) -> bool {
        self.first.is_empty()
    }

    /// Whether there are more than are told, so that there is no use in looking for others.
    pub fn are_too_many(&self) -> bool {
        self.more
    }

    /// As they stand in the text.
    fn in_order(&self) -> Vec<&Problem> {
        let mut all: Vec<&Problem> = self.first.iter().collect();
        all.sort_by_key(|problem| problem.span);
        all
    }

    /// The one that stands first in the text.
    pub fn leading(&self) -> Option<&Problem> {
        self.first.iter().min_by_key(|problem| problem.span)
    }

    pub fn words(&self, source: &Source) -> String {
        let mut words: String = self.in_order().iter().map(|problem| problem.words(source)).collect();
        let (count, file) = (self.first.len(), &source.file);
        words += &match (self.more, count) {
            (true, _) => format!("{count} faults in {file} are told, and there are more\n"),
            (false, 1) => format!("1 fault in {file}\n"),
            (false, _) => format!("{count} faults in {file}\n"),
        };
        words
    }

    pub fn json(&self, source: &Source) -> Vec<Value> {
        self.in_order().iter().map(|problem| problem.json(source)).collect()
    }
}

impl Problem {
    fn words(&self, source: &Source) -> String {
        let place = source.place(self.span.start);
        let [line, mark] = shown(source, self.span);
        let number = place.line.to_string();
        let margin = " ".repeat(number.len());
        let mut words = format!("{}:{}:{}: {}\n", source.file, place.line, place.column, self.found);
        words += &format!("  {number} | {line}\n  {margin} | {mark}\n");
        words += &format!("    here may stand {}\n", self.may);
        if let Some(mend) = &self.mend {
            words += &format!("    likely mend: {mend}\n");
        }
        words + "\n"
    }

    fn json(&self, source: &Source) -> Value {
        let place = source.place(self.span.start);
        let refusal = self
            .code
            .strip_prefix("refused-")
            .and_then(|number| number.parse::<u64>().ok());
        object([
            ("code", self.code.into()),
            ("refusal", refusal.into()),
            ("file", source.file.as_str().into()),
            ("line", place.line.into()),
            ("column", place.column.into()),
            ("what", self.found.as_str().into()),
            ("may_stand", self.may.as_str().into()),
            ("mend", self.mend.as_deref().into()),
        ])
    }
}

/// The line of a place, or what lies around the place if the line is long, and a line that marks the place under it.
pub fn shown(source: &Source, span: Span) -> [String; 2] {
    let (line, start) = source.line(span.start);
    let at = (span.start - start).min(line.len());
    let whole = line.chars().count() <= SHOWN;
    let [most_before, most_after] = if whole { [SHOWN; 2] } else { AROUND };
    let before = last(&line[..at], most_before);
    let after = first(&line[at..], most_after);
    let marked = first(&line[at..(span.end - start).clamp(at, line.len())], most_after);
    let [cut_before, cut_after] =
        [before.len() < at, at + after.len() < line.len()].map(|cut| if cut { "..." } else { "" });
    let indent = " ".repeat(cut_before.len() + before.chars().count());
    [
        format!("{cut_before}{}{}{cut_after}", seen(before), seen(after)),
        format!("{indent}{}", "^".repeat(marked.chars().count().max(1))),
    ]
}

/// At most so many letters from the start.
pub fn first(text: &str, count: usize) -> &str {
    text.char_indices().nth(count).map_or(text, |(end, _)| &text[..end])
}

/// At most so many letters from the end.
fn last(text: &str, count: usize) -> &str {
    match count
        .checked_sub(1)
        .and_then(|before| text.char_indices().nth_back(before))
    {
        Some((start, _)) => &text[start..],
        None => text,
    }
}

/// Whether a sign is not seen by itself, or moves others about: controls, marks over letters, signs of direction and of no width.
pub fn is_unseen(sign: char) -> bool {
    let marks = matches!(sign, '\u{AD}' | '\u{300}'..='\u{36F}' | '\u{200B}'..='\u{200F}' | '\u{202A}'..='\u{202E}');
    marks || matches!(sign, '\u{2060}'..='\u{2069}' | '\u{FEFF}') || sign.is_control()
}

/// A text in which each sign takes one place.
pub fn seen(text: &str) -> String {
    let plain = |sign: char| match sign {
        '\t' => ' ',
        sign if is_unseen(sign) => '?',
        sign => sign,
    };
    text.chars().map(plain).collect()
}
