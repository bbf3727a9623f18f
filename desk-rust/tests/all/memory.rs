//! No memory beyond a few times the text: the desk answers within a limit that the shell sets, whatever the text is.

use crate::place::Place;
use crate::running::{said, DESK};
use std::fs;
use std::process::{Command, Stdio};

/// The most that is read of a text.
const TEXT: usize = 4 << 20;

/// What the program takes by itself, and some more: 4 MiB were measured.
const ITSELF: usize = 16 << 20;

/// So many times the text it may take: 8.2 were measured, where every line gives an address a name.
const TIMES: usize = 12;

/// The desk on standard input, with so much room for all that it takes.
fn within(bytes: usize, option: &str) -> Command {
    let mut shell = Command::new("sh");
    let line = format!("ulimit -v {}; exec \"$0\" report - {option}", bytes >> 10);
    shell.arg("-c").arg(line).arg(DESK);
    shell
}

/// As many lines as there is room for, each with its number.
fn lines(head: &str, line: impl Fn(usize) -> String) -> Vec<u8> {
    let mut text = head.to_string();
    for number in 0.. {
        let next = line(number);
        if text.len() + next.len() > TEXT {
            break;
        }
        text += &next;
    }
    text.into_bytes()
}

const HEAD: &str = "cache line 16 sets 8 ways 2 start unknown\nentry a\na: read 0x00\n";

fn addresses(head: &str) -> Vec<u8> {
    lines(head, |number| format!("at a{number:x}=0\n"))
}

#[test]
fn the_longest_texts_take_a_few_times_their_length() {
    let texts = [
        lines(HEAD, |number| format!("n{number:x}:\n")),
        lines(HEAD, |_| "a1:\n".into()),
        addresses(HEAD),
        addresses(&format!("{HEAD}b: read zz\n")),
        lines(HEAD, |_| "at a1=0\n".into()),
        lines(HEAD, |number| format!("n{number:x}: load\n")),
        lines(HEAD, |number| format!("n{number:x}: -> x{number:x}\n")),
        lines(HEAD, |_| "fact a<=1\n".into()),
        lines(&format!("{HEAD}fact a"), |_| "+a".into()),
        lines(&format!("{HEAD}fact a"), |number| format!("+x{number:x}")),
        lines("", |_| "ab\n".into()),
        lines(HEAD, |_| "#\n".into()),
        lines("", |_| "\n".into()),
        vec![b'a'; TEXT],
        vec![b','; TEXT],
        vec![b'#'; TEXT],
        [HEAD.as_bytes(), &vec![b'1'; TEXT - HEAD.len()]].concat(),
        vec![0xFF; TEXT],
        vec![0; TEXT],
        vec![1; TEXT],
    ];
    for text in texts {
        assert!(text.len() > TEXT - 100 && text.len() <= TEXT);
        for option in ["", "--json"] {
            let said = said(within(ITSELF + TIMES * TEXT, option), &text);
            assert!(said.out.len() + said.err.len() > 100, "something is said");
        }
    }
}

/// So many times both texts `compare` may take: 21 were measured, where a fact has two million terms.
const TIMES_OF_BOTH: usize = 32;

#[test]
fn the_longest_pairs_take_a_few_times_their_length() {
    let place = Place::new("longest-pairs");
    let addresses = |to: &str| lines(HEAD, |number| format!("at a{number:x}={to}\n"));
    let terms = |limit: &str| {
        let mut text = lines(&format!("{HEAD}fact a"), |_| "+a".into());
        text.truncate(text.len() - "+a+a".len());
        [text, limit.into()].concat()
    };
    for (name, [one, other]) in [
        ("addresses", ["0", "1"].map(addresses)),
        ("terms", ["<=1", "<=2"].map(terms)),
    ] {
        fs::write(place.path(name), one).expect("a file can be written");
        let limit = (ITSELF + TIMES_OF_BOTH * 2 * TEXT) >> 10;
        let mut shell = Command::new("sh");
        let line = format!("ulimit -v {limit}; exec \"$0\" compare \"$1\" -");
        shell.arg("-c").arg(line).arg(DESK).arg(place.path(name));
        let said = said(shell, &other);
        assert_eq!((said.status, said.err.as_str()), (0, ""), "{name}");
        assert!(said.out.contains("differ"), "{}", said.out);
    }
}

/// So that the limit is one: the desk does not have the room for a text in less than its length.
#[test]
fn the_limit_is_kept() {
    let mut short = within(TEXT, "");
    let mut child = short
        .stdin(Stdio::piped())
        .stderr(Stdio::null())
        .spawn()
        .expect("the shell starts");
    let _ = std::io::Write::write_all(&mut child.stdin.take().expect("it is open"), &addresses(HEAD));
    let status = child.wait().expect("the desk ends");
    assert!(!matches!(status.code(), Some(0 | 1)), "{status}");
}
