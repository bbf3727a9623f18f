//! The charts in digits: NAME.hex has a line of them for the header and for each node, and behind each what it says in words.

use charts::{Header, Record};
use reports::folder::{chart, names, text};

/// A line's eight bytes, and the words behind them.
struct Line {
    bytes: Vec<u8>,
    words: String,
}

/// The lines of a source that have digits.
fn lines(name: &str) -> Vec<Line> {
    let text = text(&format!("{name}.hex"));
    text.lines()
        .map(|line| line.split_once('#').unwrap_or((line, "")))
        .filter(|(digits, _)| !digits.trim().is_empty())
        .map(|(digits, words)| Line {
            bytes: bytes(digits),
            words: words.trim().to_string(),
        })
        .collect()
}

/// The bytes of some digits, spaces left out.
fn bytes(digits: &str) -> Vec<u8> {
    let digits: String = digits.split_whitespace().collect();
    assert_eq!(digits.len(), 16, "{digits}");
    let word = u64::from_str_radix(&digits, 16).expect("they are digits");
    word.to_be_bytes().to_vec()
}

/// The number in some words, as 16 in '16-byte lines'.
fn number(words: &str) -> u64 {
    let digits: String = words.chars().filter(char::is_ascii_digit).collect();
    digits
        .parse()
        .unwrap_or_else(|_| panic!("there is no number in '{words}'"))
}

/// The exponent of a number that is a power of two.
fn exponent(number: u64) -> u64 {
    assert!(number.is_power_of_two(), "{number}");
    u64::from(number.trailing_zeros())
}

/// The header that words speak of, as '16-byte lines, 1 set, 2 ways, empty, 3 nodes, entry 0'.
fn header(words: &str) -> Header {
    let parts: Vec<&str> = words.split(", ").collect();
    let [line, sets, ways, start, nodes, entry] = parts[..] else {
        panic!("not the words of a header: '{words}'");
    };
    Header {
        line: exponent(number(line)),
        sets: exponent(number(sets)),
        ways: number(ways),
        start: match start {
            "unknown" => 0,
            "empty" => 1,
            _ => panic!("not a start: '{start}'"),
        },
        entry: number(entry),
        ..Header::of(number(nodes) as usize)
    }
}

/// The node and the record that words speak of, as '1 read 0x10 -> 1 and 2' or '0 write 0x0E, 4 bytes', up to a colon.
fn record(words: &str) -> (usize, Record) {
    let facts = words.split_once(':').map_or(words, |(facts, _)| facts);
    let (own, arrows) = facts.split_once("->").unwrap_or((facts, ""));
    let (own, bytes) = own.split_once(", ").unwrap_or((own, "1 byte"));
    let own: Vec<&str> = own.split_whitespace().collect();
    let address = || {
        let digits = own[2].strip_prefix("0x").expect("an address begins with 0x");
        u64::from_str_radix(digits, 16).expect("an address has digits")
    };
    let bare = match own[1] {
        "step" => Record::step(),
        "read" => Record::read(address()),
        "write" => Record::write(address()),
        kind => panic!("not a kind: '{kind}'"),
    };
    let targets = arrows.split(" and ").filter(|target| !target.trim().is_empty());
    let bare = bare.sized(exponent(number(bytes)));
    let record = targets.fold(bare, |record, target| record.to(number(target)));
    (number(own[0]) as usize, record)
}

#[test]
fn the_digits_make_the_chart() {
    for name in names(".hex") {
        let made: Vec<u8> = lines(&name).into_iter().flat_map(|line| line.bytes).collect();
        assert_eq!(made, chart(&name), "{name}");
    }
}

#[test]
fn the_words_say_what_the_digits_do() {
    for name in names(".hex") {
        for (place, line) in lines(&name).into_iter().enumerate() {
            let Some(node) = place.checked_sub(1) else {
                assert_eq!(header(&line.words).bytes(), line.bytes[..], "{name}: {}", line.words);
                continue;
            };
            let (told, record) = record(&line.words);
            assert_eq!(told, node, "{name}: {}", line.words);
            assert_eq!(record.bytes(), line.bytes[..], "{name}: {}", line.words);
        }
    }
}
