//! The rules of docs/RULES.md by their numbers, and where other texts cite them.

use std::fmt;

/// A rule's number: its section, and its place there.
#[derive(Clone, Copy, Debug, PartialEq, Eq, PartialOrd, Ord)]
pub struct Number {
    pub section: usize,
    pub place: usize,
}

impl fmt::Display for Number {
    fn fmt(&self, text: &mut fmt::Formatter) -> fmt::Result {
        write!(text, "{}.{}", self.section, self.place)
    }
}

/// The whole number that a text begins with, and what follows it.
fn whole(text: &str) -> Option<(usize, &str)> {
    let end = text.find(|sign: char| !sign.is_ascii_digit()).unwrap_or(text.len());
    Some((text[..end].parse().ok()?, &text[end..]))
}

impl Number {
    /// The number that a text begins with, and what follows it. One with a third part, or with letters behind it, is none.
    pub fn begins(text: &str) -> Option<(Number, &str)> {
        let (section, rest) = whole(text)?;
        let (place, rest) = whole(rest.strip_prefix('.')?)?;
        let mut signs = rest.chars();
        match signs.next() {
            Some(sign) if sign.is_alphanumeric() => None,
            Some('.') if signs.next().is_some_and(|sign| sign.is_ascii_digit()) => None,
            _ => Some((Number { section, place }, rest)),
        }
    }

    /// All numbers of a text, in their order, whatever they stand for.
    pub fn all(text: &str) -> Vec<Number> {
        text.split(|sign: char| !sign.is_alphanumeric() && sign != '.')
            .filter_map(|word| Number::begins(word.trim_matches('.')))
            .map(|(number, _)| number)
            .collect()
    }
}

#[derive(Clone, Debug, PartialEq, Eq)]
pub struct Rule {
    pub number: Number,
    pub fallen: bool,
    /// How many words it has, its number among them.
    pub words: usize,
}

/// A section with a number in its heading.
#[derive(Clone, Debug, PartialEq, Eq)]
pub struct Section {
    pub number: usize,
    pub lines: Vec<String>,
}

/// The sections of a page whose headings have numbers, as `## 6. Ages`. A heading without one ends the section before it.
pub fn sections(page: &str) -> Vec<Section> {
    let mut sections: Vec<Section> = vec![];
    let mut inside = false;
    for line in page.lines() {
        if let Some(title) = line.strip_prefix("## ") {
            let number = whole(title).filter(|(_, rest)| rest.starts_with(". "));
            inside = number.is_some();
            sections.extend(number.map(|(number, _)| Section { number, lines: vec![] }));
        } else if let (true, Some(section)) = (inside, sections.last_mut()) {
            section.lines.push(line.to_string());
        }
    }
    sections
}

fn is_example(line: &str) -> bool {
    line.starts_with("*Example.*")
}

impl Section {
    pub fn has_example(&self) -> bool {
        self.lines.iter().any(|line| is_example(line))
    }

    /// Its rules, in their order, which go before its example: items as `- **6.3** ..`, and rows of a table that begin so.
    pub fn rules(&self) -> Vec<Rule> {
        let mut rules: Vec<Rule> = vec![];
        for line in self.lines.iter().take_while(|line| !is_example(line)) {
            let begins = line.strip_prefix("- **").or_else(|| line.strip_prefix("| **"));
            if let Some((number, _)) = begins.and_then(Number::begins) {
                rules.push(Rule {
                    number,
                    fallen: false,
                    words: 0,
                });
            }
            if let Some(rule) = rules.last_mut() {
                rule.fallen |= line.contains("*fallen*");
                rule.words += line
                    .split_whitespace()
                    .filter(|word| word.contains(char::is_alphanumeric))
                    .count();
            }
        }
        rules
    }
}

/// One rule that is cited, or all from one to another.
#[derive(Clone, Copy, Debug, PartialEq, Eq)]
pub struct Cited {
    pub from: Number,
    pub to: Number,
}

impl fmt::Display for Cited {
    fn fmt(&self, text: &mut fmt::Formatter) -> fmt::Result {
        write!(text, "{} to {}", self.from, self.to)
    }
}

impl Cited {
    /// The rules that it cites, or nothing if it runs backwards or out of its section.
    pub fn rules(self) -> Option<Vec<Number>> {
        let Cited { from, to } = self;
        (from.section == to.section && from.place <= to.place)
            .then(|| (from.place..=to.place).map(|place| Number { place, ..from }).collect())
    }
}

/// What a line of comment begins with, the longer ones first.
const MARKS: [&str; 7] = ["///", "//!", "//", "/*", "--", "*", "#"];

/// A line without what makes it a comment.
fn bare(line: &str) -> &str {
    let line = line.trim_start();
    MARKS.iter().find_map(|mark| line.strip_prefix(mark)).unwrap_or(line)
}

/// What a text cites: numbers after the word rule or rules, one or several, also over the end of a line of comment. Other numbers are none.
pub fn cited(text: &str) -> Vec<Cited> {
    let words: Vec<&str> = text.lines().flat_map(|line| bare(line).split_whitespace()).collect();
    let mut found = vec![];
    let mut at = 0;
    while at < words.len() {
        let word = words[at].trim_start_matches(|sign: char| !sign.is_alphanumeric());
        at += 1;
        if matches!(word, "rule" | "rules" | "Rule" | "Rules") {
            at += list(&words[at..], &mut found);
        }
    }
    found
}

/// Takes the citations that some words begin with, as `6.3`, `6.3 and 6.4`, `7.2 to 7.6`, `2.1, 2.2 and 2.6`. How many words they are.
fn list(words: &[&str], found: &mut Vec<Cited>) -> usize {
    let word = |at: usize| words.get(at).copied().unwrap_or("");
    let mut at = 0;
    while let Some((from, mut tail)) = Number::begins(word(at)) {
        at += 1;
        let mut to = from;
        if let (true, "to", Some((last, rest))) = (tail.is_empty(), word(at), Number::begins(word(at + 1))) {
            (to, tail) = (last, rest);
            at += 2;
        }
        found.push(Cited { from, to });
        let joined = matches!(word(at), "and" | "or") && Number::begins(word(at + 1)).is_some();
        match tail {
            "" | "," if joined => at += 1,
            "," => (),
            _ => break,
        }
    }
    at
}

/// Lines of comment that follow one another in a file of definitions, or one behind code.
#[derive(Clone, Debug, PartialEq, Eq)]
pub struct Comment {
    /// Where it begins, from 1.
    pub line: usize,
    pub text: String,
    /// Whether it stands directly above a definition or inside one. What a file begins with does not.
    pub at_definition: bool,
}

/// Whether a line is code of a definition, and not of what a file uses or is made of.
fn defines(line: &str) -> bool {
    let line = line.trim();
    !line.is_empty() && !line.starts_with("use ") && !line.starts_with("pub mod ")
}

/// Whether a line begins the definition of a name, or a field of that name.
fn begins_definition(line: &str, name: &str) -> bool {
    let words = ["abbrev", "unfoldable", "pub", "record", "data"];
    line.split_whitespace().find(|word| !words.contains(word)) == Some(name)
}

/// What is cited where a name is defined: in the lines around its definition, up to the next empty ones.
pub fn cited_at(source: &str, name: &str) -> Vec<Cited> {
    let parts = source
        .split("\n\n")
        .filter(|part| part.lines().any(|line| begins_definition(line, name)));
    let comments = parts.flat_map(|part| part.lines().filter_map(|line| line.split_once("--")));
    cited(&comments.map(|(_, text)| text).collect::<Vec<_>>().join("\n"))
}

/// The comments of a file of definitions, in their order.
pub fn comments(source: &str) -> Vec<Comment> {
    let lines: Vec<&str> = source.lines().collect();
    let is_comment = |line: &&str| line.trim_start().starts_with("--");
    let mut comments = vec![];
    let mut at = 0;
    while at < lines.len() {
        let long = lines[at..].iter().take_while(|line| is_comment(line)).count();
        let line = at + 1;
        if long > 0 {
            let at_definition = at > 0 && lines.get(at + long).is_some_and(|line| defines(line));
            let text = lines[at..at + long].join("\n");
            comments.push(Comment {
                line,
                text,
                at_definition,
            });
        } else if let Some((code, text)) = lines[at].split_once(" -- ") {
            comments.push(Comment {
                line,
                text: text.to_string(),
                at_definition: defines(code),
            });
        }
        at += long.max(1);
    }
    comments
}

impl Comment {
    /// Its words on one line, without the marks of comment.
    pub fn words(&self) -> String {
        let words: Vec<&str> = self
            .text
            .lines()
            .flat_map(|line| bare(line).split_whitespace())
            .collect();
        words.join(" ")
    }
}
