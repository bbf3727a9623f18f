//! How a text looks, drawn: numbers of every kind, spaces or none, comments, blank lines, any ends of lines.

use charts::random::Random;

/// A line, piece by piece.
pub type Line = Vec<String>;

/// An address in one of the ways that a text can have it.
pub fn address(random: &mut Random, address: u64) -> String {
    // as many decimal digits are a fault
    match address < 1_000_000 {
        true => number(random, address),
        false => format!("0x{address:x}"),
    }
}

/// A number, decimal or hexadecimal, in small or large digits, with or without `_` and leading zeros.
pub fn number(random: &mut Random, number: u64) -> String {
    let (before, digits) = match random.below(5) {
        0 | 1 => ("", format!("{number}")),
        2 => ("0x", format!("{number:x}")),
        3 => ("0x", format!("{number:08X}")),
        _ => ("0X", format!("{number:X}")),
    };
    let mut text = before.to_string();
    for (place, digit) in digits.chars().enumerate() {
        if place > 0 && random.once_in(8) {
            text.push('_');
        }
        text.push(digit);
    }
    text
}

/// Whether two pieces would be one if they stood side by side.
fn would_join(one: &str, other: &str) -> bool {
    let in_word = |sign: Option<char>| sign.is_some_and(|sign| sign.is_alphanumeric() || "_.$".contains(sign));
    in_word(one.chars().next_back()) && in_word(other.chars().next()) && other != ".." && one != ".."
}

fn any_of<'a>(random: &mut Random, pieces: &[&'a str]) -> &'a str {
    pieces[random.below(pieces.len() as u64) as usize]
}

/// The text of lines.
pub fn laid_out(random: &mut Random, lines: &[Line]) -> String {
    let end = if random.once_in(4) { "\r\n" } else { "\n" };
    let wide = random.once_in(2);
    let mut text = if random.once_in(8) { "\u{FEFF}" } else { "" }.to_string();
    for line in lines {
        while random.once_in(6) {
            text += any_of(random, &["", "  ", "# a comment: -> 'x', 0x", "\t#"]);
            text += end;
        }
        text += any_of(random, &["", "", "\t", "  "]);
        for (place, piece) in line.iter().enumerate() {
            let joins = place > 0 && would_join(&line[place - 1], piece);
            if joins || place > 0 && wide && random.once_in(2) {
                text += any_of(random, &[" ", "  ", "\t", " \t "]);
            }
            text += piece;
        }
        if random.once_in(5) {
            text += any_of(random, &[" ", "# behind", "   # visits 7, 'more'", "#"]);
        }
        text += end;
    }
    // the last line need not be ended
    if random.once_in(4) {
        text.truncate(text.trim_end().len());
    }
    text
}
