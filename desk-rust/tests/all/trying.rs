//! Trying the desk on bytes of every kind, within this program: a panic is a failed test.

use crate::json::{read, Json};
use desk::input::Input;
use desk::known::Known;
use desk::report::report;
use desk::source::Source;
use desk::totals::totals;
use desk::trouble::Trouble;
use desk::why::why;

/// What the file is called.
const FILE: &str = "tried";

fn input(bytes: &[u8]) -> Input {
    Input {
        file: FILE.into(),
        bytes: bytes.to_vec(),
    }
}

/// The chart that these bytes say, which they have to.
pub fn known(bytes: &[u8]) -> Known {
    input(bytes)
        .known()
        .unwrap_or_else(|trouble| panic!("{}", trouble.words()))
}

/// Why these bytes say no chart, which they must not.
pub fn trouble(bytes: &[u8]) -> Trouble {
    let shown = String::from_utf8_lossy(&bytes[..bytes.len().min(200)]);
    input(bytes).known().err().unwrap_or_else(|| panic!("a chart: {shown}"))
}

/// A text of so many nodes, each with an arrow to the next.
pub fn chain(nodes: usize) -> String {
    let head = "cache line 16 sets 8 ways 2 start unknown\nentry n0\n".to_string();
    let lines = (1..nodes).map(|node| format!("n{}: -> n{node}\n", node - 1));
    head + &lines.collect::<String>() + &format!("n{}:\n", nodes - 1)
}

/// What came of a try.
#[derive(Clone, Copy, Debug, PartialEq, Eq)]
pub enum Tried {
    Answered,
    /// So many faults of a text were told.
    Faults(usize),
    /// A chart of bytes was refused.
    Refused,
}

/// Tries every command on these bytes, and holds what is told to being clear.
pub fn tried(bytes: &[u8]) -> Tried {
    match input(bytes).known() {
        Ok(known) => {
            answers(&known);
            Tried::Answered
        }
        Err(Trouble::Refused { .. }) => {
            assert_eq!(bytes.first(), Some(&1), "a text is not refused as a chart of bytes is");
            Tried::Refused
        }
        Err(Trouble::Text(source, problems)) => {
            assert_ne!(bytes.first(), Some(&1), "a chart of bytes has no faults of a text");
            Tried::Faults(told(&Trouble::Text(source, problems), bytes))
        }
        Err(trouble) => panic!("{}", trouble.words()),
    }
}

/// That each command has an answer for a chart, or says in words what it lacks.
fn answers(known: &Known) {
    let report = report(known).unwrap_or_else(|trouble| panic!("{}", trouble.words()));
    let classes = read(&report.json().to_string()).at("nodes").list().len();
    assert_eq!(classes, known.nodes.len());
    // facts are for glpsol, which is not run for each of very many texts
    let plain = known.facts.is_empty().then(|| totals(known, Some(1), Some(10)));
    if let Some(Err(trouble)) = plain {
        assert!(matches!(trouble, Trouble::Unanswered { .. } | Trouble::Text(..)));
        assert!(trouble.words().ends_with('\n'));
    }
    for node in [0, known.nodes.len() - 1] {
        let why = why(known, node).unwrap_or_else(|trouble| panic!("{}", trouble.words()));
        assert!(why.words(false).contains(&known.nodes[node].name));
    }
}

/// So many bytes are enough for what is told of a text, however long it is.
const ENOUGH: usize = 64 << 10;

/// Holds the faults of a text to being told clearly: where there is such a place, in lines that a terminal shows. How many there are.
fn told(trouble: &Trouble, bytes: &[u8]) -> usize {
    let (words, json) = (trouble.words(), read(&trouble.json().to_string()));
    let errors = json.at("errors").list();
    assert!((1..=20).contains(&errors.len()), "{} faults", errors.len());
    assert!(words.len() <= ENOUGH, "{} bytes are told", words.len());
    let shown = |sign: char| sign == '\n' || !sign.is_control();
    assert!(words.chars().all(shown), "a terminal is told more than text: {words:?}");
    let text = String::from_utf8_lossy(bytes);
    let lines: Vec<&str> = text.split('\n').collect();
    for error in errors {
        let [line, column] = ["line", "column"].map(|name| error.at(name).count());
        let letters = lines.get(line - 1).expect("there is such a line").chars().count();
        assert!(column >= 1 && column <= letters + 1, "{line}:{column} of {letters}");
        assert!(words.contains(&format!("{FILE}:{line}:{column}: {}\n", error.at("what").text())));
    }
    errors.len()
}

/// The errors that are told of bytes which say no chart.
pub fn errors(bytes: &[u8]) -> Vec<Json> {
    read(&trouble(bytes).json().to_string()).at("errors").list().to_vec()
}

/// The chart of a text that has to say one.
pub fn made(text: &str) -> Known {
    let source = Source {
        file: FILE.into(),
        text: text.into(),
    };
    desk::made::made(source).unwrap_or_else(|trouble| panic!("{}\n{text}", trouble.words()))
}
