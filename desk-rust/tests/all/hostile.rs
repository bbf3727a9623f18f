//! Hostile text: an answer or a clear error, never a panic, and soon.

use crate::trying::{tried, Tried};
use charts::random::Random;
use reports::each::each;
use std::time::{Duration, Instant};

const MILLION: usize = 1_000_000;

/// The most that is read of a text.
pub const MOST: usize = 4 << 20;

/// What one text may take, however it is compiled and whatever else the machine does.
const SOON: Duration = Duration::from_secs(30);

/// A text that is answered, and to which lines can be added.
pub const HEAD: &str = "cache line 16 sets 8 ways 2 start unknown\nentry a\na: read 0x00\n";

/// Tries a text, and holds it to being done soon.
pub fn soon(text: impl AsRef<[u8]>) -> Tried {
    let text = text.as_ref();
    let begin = Instant::now();
    let tried = tried(text);
    let taken = begin.elapsed();
    let shown = String::from_utf8_lossy(&text[..text.len().min(100)]);
    assert!(taken < SOON, "{taken:?} for {} bytes: {shown:?}", text.len());
    tried
}

/// A piece again and again, up to so many bytes.
fn repeated(piece: &str, bytes: usize) -> String {
    piece.repeat(bytes / piece.len())
}

/// Signs that stand in a text, and some that do not, apart by spaces.
const SIGNS: &str = "a Z _ . $ 0 1 9 f x : , = + - > # ' \" ( \\ é 深 🚢 -> .. a: a, 0x 1_ a= é, a:->a,";

/// Signs that are not seen: space of several kinds, what steers a terminal, an accent without its letter, marks of direction and of order.
const UNSEEN: [&str; 14] = [
    " ", "\t", "\r", "\u{85}", "\u{A0}", "\0", "\u{1}", "\x1B", "\x7F", "\u{301}", "\u{200B}", "\u{202E}", "\u{FEFF}",
    "a ",
];

#[test]
fn a_million_letters_on_a_line() {
    let words = [
        "-> a ",
        "a: -> a, a ",
        "visits 1 ",
        "read 0 ",
        "1 ",
        "fact a ",
        "a + ",
        "<= ",
    ];
    let all: Vec<&str> = SIGNS.split(' ').chain(UNSEEN).chain(words).collect();
    each(&all, |piece| {
        let line = repeated(piece, MILLION);
        let expected = |tried| match piece.starts_with('\u{1}') {
            true => tried == Tried::Refused,
            false => matches!(tried, Tried::Faults(_)),
        };
        assert!(expected(soon(&line)), "{piece:?}");
        soon(format!("{HEAD}{line}"));
        soon(format!("{HEAD}b: read 0x10 {line}\nc: -> {line}\n"));
    });
}

/// What a line can begin with, before each thing that can stand in it.
const PLACES: [&str; 26] = [
    "cache ",
    "cache line ",
    "cache line 16 start ",
    "cost ",
    "cost hit ",
    "entry ",
    "at ",
    "at x ",
    "at x = ",
    "a: ",
    "a: read ",
    "a: read 0 + ",
    "a: read 0 size ",
    "a: -> ",
    "a: -> b, ",
    "a: -> b, c, ",
    "a: visits ",
    "a: visits 1..",
    "fact ",
    "fact 1 ",
    "fact a + ",
    "fact a <= ",
    "fact a <= 1 ",
    "loop ",
    "loop a at most ",
    "loop a at most 1 per ",
];

#[test]
fn a_million_letters_at_every_place_of_a_line() {
    let letters = ["a", "1", "é", ","];
    let cases: Vec<(&str, &str)> = PLACES
        .iter()
        .flat_map(|place| letters.map(|letter| (*place, letter)))
        .collect();
    each(&cases, |(place, letter)| {
        let text = format!("{place}{}", repeated(letter, MILLION));
        assert!(matches!(soon(&text), Tried::Faults(_)), "{place}{letter}");
    });
}

#[test]
fn as_many_lines_as_there_is_room_for() {
    let lines = "a|a:|1|:|at|->|é|entry a|cost hit 1 miss 1|at a=0|a: -> a, a|a: read b|fact a<=1|fact b|loop a at most 1 per b|cache line 16 sets 8 ways 2 start empty";
    let lines: Vec<String> = lines.split('|').map(|line| format!("{line}\n")).collect();
    each(&lines, |line| {
        assert!(matches!(soon(repeated(line, MOST)), Tried::Faults(_)), "{line:?}");
        soon(format!("{HEAD}{}", repeated(line, MOST - HEAD.len())));
    });
    for line in ["\n", "\r\n", " \n", "#\n", "  # a\n"] {
        assert_eq!(soon(repeated(line, MOST)), Tried::Faults(2), "{line:?}");
        let text = format!("{HEAD}{}", repeated(line, MOST - HEAD.len()));
        assert_eq!(soon(text), Tried::Answered, "{line:?}");
    }
}

/// Pieces of texts, apart by spaces; `;` stands for the end of a line.
const PIECES: &str =
    "a b c : : -> -> , .. = + 0 1 0x10 16 8 4 2 size read write step visits cache line sets ways start \
                      empty unknown cost hit miss entry at # é é: a: b: - _ 0x 1_0 ? ; ; ; ;a: ;b: ;c: fact loop most per <= >= < ;fact \
                      ;fact ;loop";

#[test]
fn noise() {
    let seeds: Vec<u64> = (0..200).collect();
    let pieces: Vec<String> = PIECES.split(' ').map(|piece| piece.replace(';', "\n")).collect();
    each(&seeds, |seed| {
        let mut random = Random::new(*seed);
        let length = [0, 1, 2, 7, 100, 5_000][random.below(6) as usize] + random.below(20);
        let bytes: Vec<u8> = (0..length).map(|_| random.below(256) as u8).collect();
        soon(bytes);
        let plain: Vec<u8> = (0..length).map(|_| random.within(9, 126) as u8).collect();
        soon(plain);
        let mut soup = if random.once_in(2) { HEAD } else { "" }.to_string();
        for _ in 0..random.below(2_000) {
            soup += &pieces[random.below(pieces.len() as u64) as usize];
            soup += if random.once_in(3) { "" } else { " " };
        }
        soon(soup);
    });
}

#[test]
fn hardly_anything() {
    for text in [
        "",
        "\n",
        "\0",
        "\0\0\0",
        " ",
        "#",
        "\u{FEFF}",
        "\u{FEFF}\n",
        "\r",
        "a",
        ":",
        "-",
        ".",
        "\u{301}",
    ] {
        assert!(matches!(soon(text), Tried::Faults(_)), "{text:?}");
    }
    // the first byte of a chart
    assert_eq!(soon([1]), Tried::Refused);
    assert_eq!(soon([1; 200]), Tried::Refused);
}
