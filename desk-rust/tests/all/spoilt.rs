//! Texts that are spoilt at every place: cut, one byte changed, or a byte put in that is no UTF-8.

use crate::golden;
use crate::trying::{errors, tried, Tried};
use reports::each::each;
use reports::folder::{names, text};
use std::fs;

/// All golden texts and all of charts/, but for those that are long.
fn texts() -> Vec<Vec<u8>> {
    let folder = golden::folder("faults");
    let faults = golden::names(&folder, ".txt");
    let mut texts: Vec<Vec<u8>> = faults
        .iter()
        .map(|name| fs::read(folder.join(format!("{name}.txt"))).expect("the text can be read"))
        .collect();
    texts.extend(
        names(".txt")
            .iter()
            .map(|name| text(&format!("{name}.txt")).into_bytes()),
    );
    texts.retain(|text| text.len() < 3_000);
    texts
}

/// A short text that has every line and every sign of the grammar, and a letter of two bytes.
pub const EVERY_LINE: &str = "\
cache line 16 sets 8 ways 2 start empty
cost hit 1 miss 10
entry a
at é = 0x2_0
a: read é + 4 size 1 -> b, a visits 0..9 # -
b:
";

/// The same of lines of facts.
pub const FACTS: &str = "\
cache line 16 sets 1 ways 1 start empty
entry a
a: -> b
b: visits 0..9
fact a - 0x2 b + a <= -3 # -
fact b>=1
loop b at most 2 per a
";

#[test]
fn texts_that_are_cut_at_every_byte() {
    let texts = texts();
    assert!(texts.len() >= 200, "only {} texts", texts.len());
    each(&texts, |text| {
        for end in 0..text.len() {
            tried(&text[..end]);
        }
    });
}

#[test]
fn a_text_with_every_single_byte_changed_to_every_other() {
    for text in [EVERY_LINE, FACTS] {
        let places: Vec<usize> = (0..text.len()).collect();
        assert_eq!(tried(text.as_bytes()), Tried::Answered);
        each(&places, |place| {
            let mut bytes = text.as_bytes().to_vec();
            for byte in 0..=u8::MAX {
                bytes[*place] = byte;
                tried(&bytes);
            }
        });
    }
}

#[test]
fn texts_with_a_byte_put_in_or_left_out_at_every_place() {
    for text in [EVERY_LINE, FACTS].map(str::as_bytes) {
        for place in 0..text.len() {
            let (before, after) = text.split_at(place);
            tried(&[before, &after[1..]].concat());
            for byte in b"\0\t\n\r #':,=+-><.0_ax" {
                tried(&[before, &[*byte], after].concat());
            }
        }
    }
}

/// What UTF-8 never is: a byte that never stands, one that goes on with nothing, letters cut short, one too long, half a pair of UTF-16.
const NO_TEXT: [&[u8]; 7] = [
    b"\xFF",
    b"\x80",
    b"\xC3",
    b"\xE6\xB7",
    b"\xF0\x9F\x9A",
    b"\xC0\x80",
    b"\xED\xA0\x80",
];

#[test]
fn what_is_no_utf_8_is_told_at_its_line_at_every_place() {
    let text = EVERY_LINE.as_bytes();
    for place in (0..=text.len()).filter(|place| EVERY_LINE.is_char_boundary(*place)) {
        let (before, after) = text.split_at(place);
        for wrong in NO_TEXT {
            let errors = errors(&[before, wrong, after].concat());
            let line = 1 + before.iter().filter(|byte| **byte == b'\n').count();
            assert_eq!(errors.len(), 1);
            assert_eq!(
                (errors[0].at("code").text(), errors[0].at("line").count()),
                ("not-text", line)
            );
        }
    }
}
