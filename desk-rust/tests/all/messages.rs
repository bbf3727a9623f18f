//! Every message that the sources have stands in a golden file or a picture of the pages, all of its words: what is not met there is met by
//! no eye.

use crate::golden::{folder, names};
use crate::pictures::PICTURES;
use reports::program::file;
use reports::tree::texts;
use std::fs;

/// What no golden file has: first what would be a fault of the desk itself or cannot be said as things are; then what has the most nodes in it,
/// or is said with that. No file but the limits' own spells that number, so other tests meet these.
const ELSEWHERE: [&str; 12] = [
    "a chart reads back as it was given",
    "what the rules allow",
    "this must not be: rely on neither",
    "the totals are {} and {}",
    "had laid out nothing after",
    "another of Graphviz's programs",
    "this is one node too many",
    "lines of nodes, 'NAME: ..'",
    "'./desk refusal 5' says what can be done",
    "cannot be shown: that takes a node more",
    "By which arrows it comes {}",
    "Its ages {when} {}",
];

/// A text in quotation marks, up to the mark that ends it, as it is written out; and what follows.
fn quoted(rest: &str) -> (String, &str) {
    let mut text = String::new();
    let mut signs = rest.chars();
    loop {
        match signs.next().expect("a text ends") {
            '"' => return (text, signs.as_str()),
            '\\' => match signs.next().expect("a sign follows") {
                'n' => text.push('\n'),
                '\n' => signs = signs.as_str().trim_start().chars(),
                sign => text.push(sign),
            },
            sign => text.push(sign),
        }
    }
}

/// The texts of a source that have several words, but for the reasons of what cannot fail.
fn messages(source: &str) -> Vec<String> {
    let code: Vec<&str> = source
        .lines()
        .filter(|line| !line.trim_start().starts_with("//"))
        .collect();
    let code = code.join("\n");
    let mut rest = code.as_str();
    let mut messages = vec![];
    while let Some((before, after)) = rest.split_once('"') {
        if before.ends_with('\'') {
            // the sign itself
            rest = after;
            continue;
        }
        let (text, after) = quoted(after);
        rest = after;
        if text.contains(' ') && !before.trim_end().ends_with("expect(") {
            messages.push(text);
        }
    }
    messages
}

/// The pieces of a message between what is filled in, line by line.
fn pieces(message: &str) -> Vec<String> {
    let mut pieces = vec![String::new()];
    let mut filled = false;
    for sign in message.chars() {
        match sign {
            '{' => filled = true,
            '}' => filled = false,
            _ if filled => {}
            sign => pieces.last_mut().expect("there is one").push(sign),
        }
        if matches!(sign, '}' | '\n') {
            pieces.push(String::new());
        }
    }
    let pieces = pieces.iter().map(|piece| piece.trim().to_string());
    pieces.filter(|piece| piece.len() > 2).collect()
}

#[test]
fn messages_are_found_and_cut() {
    let source = "// \"no text\"\nlet a = \"one\"; f('\"', \"two {a} words\\n\\\n    and {}more \\\"\");\nb.expect(\"it is so\")";
    assert_eq!(messages(source), ["two {a} words\nand {}more \""]);
    assert_eq!(pieces("two {a} words\nand {}more"), ["two", "words", "and", "more"]);
}

#[test]
fn each_message_of_the_sources_is_in_a_golden_file() {
    let golden: String = [("faults", ".said"), ("sessions", ".session")]
        .iter()
        .flat_map(|(name, end)| {
            names(&folder(name), end)
                .into_iter()
                .map(move |file| folder(name).join(file + end))
        })
        .chain(PICTURES.map(|name| file(&format!("docs/{name}.svg"))))
        .map(|file| fs::read_to_string(file).expect("the file can be read"))
        .collect();
    let (mut met, mut elsewhere, mut nowhere) = (0, 0, vec![]);
    for (name, source) in texts("desk-rust/src").iter().filter(|(name, _)| name.ends_with(".rs")) {
        for message in messages(source) {
            if ELSEWHERE.iter().any(|part| message.contains(part)) {
                elsewhere += 1;
            } else if let Some(piece) = pieces(&message).iter().find(|piece| !golden.contains(piece.as_str())) {
                nowhere.push(format!("{name}: '{piece}' of {message:?}"));
            } else {
                met += 1;
            }
        }
    }
    assert!(nowhere.is_empty(), "no golden file has these:\n{}", nowhere.join("\n"));
    assert!(met >= 200, "only {met} messages");
    assert_eq!(
        elsewhere,
        ELSEWHERE.len(),
        "each of those that no golden file has is one message"
    );
}
