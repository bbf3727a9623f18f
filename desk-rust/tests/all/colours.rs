//! Colours are for terminals alone, and change no word.

use crate::golden::folder;
use crate::running::{desk, said};
use crate::trying::known;
use desk::answer::Answer;
use desk::compare::compare;
use desk::report::report;
use desk::totals::totals;
use desk::trouble::Trouble;
use desk::why::why;
use reports::program::file;
use std::fs;

/// A text without what makes colours.
fn plain(painted: &str) -> String {
    let mut parts = painted.split("\x1B[");
    let mut plain = parts.next().unwrap_or("").to_string();
    for part in parts {
        let (code, text) = part.split_once('m').expect("a colour ends");
        assert!(code.parse::<u8>().is_ok(), "{code} is no colour");
        plain += text;
    }
    plain
}

#[test]
fn colours_change_no_word() {
    let winch = fs::read(file("charts/winch-as-built.txt")).expect("the text can be read");
    let kinds = fs::read(folder("texts").join("all-kinds.txt")).expect("the text can be read");
    let mut answers: Vec<Result<Answer, Trouble>> = vec![];
    answers.push(compare(&known(&winch), &known(&kinds), None, None));
    for text in [winch, kinds] {
        let known = known(&text);
        answers.push(report(&known));
        answers.extend((0..known.nodes.len()).map(|node| why(&known, node)));
        answers.push(totals(&known, Some(1), Some(10)));
    }
    let answers: Vec<Answer> = answers.into_iter().filter_map(Result::ok).collect();
    assert!(answers.len() >= 30, "only {} answers", answers.len());
    for answer in answers {
        let (painted, words) = (answer.words(true), answer.words(false));
        assert_ne!(painted, words, "there are colours");
        assert_eq!(plain(&painted), words);
        assert!(!words.contains('\x1B'));
    }
}

#[test]
fn what_is_no_terminal_gets_no_colours() {
    for words in [["report", "charts/loop.txt"], ["totals", "charts/loop.txt"]] {
        let said = said(desk(&file(""), &words), b"");
        assert!(!said.out.contains('\x1B') && said.status == 0, "{}", said.out);
    }
}
