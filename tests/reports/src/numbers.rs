//! Numbers as texts spell them.

/// Whether a sign is part of a word.
fn in_word(sign: char) -> bool {
    sign.is_alphanumeric() || sign == '_'
}

/// Whether a text begins with a comma and just three digits: thousands that go on.
fn thousands(text: &str) -> bool {
    let digits = text.strip_prefix(',').unwrap_or("");
    let long = digits.find(|sign: char| !sign.is_ascii_digit()).unwrap_or(digits.len());
    long == 3
}

/// The number that a word begins with, if it begins with a digit: hexadecimal after `0x`, else decimal. A `_` between digits is passed over, and
/// so are letters behind them, as in `64u8` and `65th`.
fn leading(word: &str) -> Option<usize> {
    let (digits, base) = match word.strip_prefix("0x") {
        Some(rest) => (rest, 16),
        None => (word, 10),
    };
    let digits = digits.replace('_', "");
    let end = digits.find(|sign: char| !sign.is_digit(base)).unwrap_or(digits.len());
    usize::from_str_radix(&digits[..end], base).ok()
}

/// All whole numbers of a text, in their order, however they are spelled: as `2345`, `2_345`, `2,345`, `0x929` and `2345u64`, and as a part of a
/// name, as in `a_chart_of_2345_bytes`.
pub fn numbers(text: &str) -> Vec<usize> {
    let mut found = vec![];
    let mut rest = text;
    while let Some(start) = rest.find(|sign: char| sign.is_ascii_digit()) {
        // digits after letters, as in `u64`, are the end of a word; after a `_` they are a part of a name
        let within = rest[..start].chars().next_back().is_some_and(char::is_alphanumeric);
        rest = &rest[start..];
        let mut end = rest.find(|sign: char| !in_word(sign)).unwrap_or(rest.len());
        let mut word = rest[..end].to_string();
        // before a comma stand three digits at the most
        let may_go_on = word.len() <= 3 && word.chars().all(|sign| sign.is_ascii_digit());
        while may_go_on && thousands(&rest[end..]) {
            word.push_str(&rest[end + 1..end + 4]);
            end += 4;
        }
        if !within {
            found.extend(leading(&word));
        }
        rest = &rest[end..];
    }
    found
}

/// A number as pages spell it: a comma before each three digits.
pub fn spelled(number: usize) -> String {
    let digits = number.to_string();
    let mut text = String::new();
    for (place, digit) in digits.chars().enumerate() {
        if place > 0 && (digits.len() - place).is_multiple_of(3) {
            text.push(',');
        }
        text.push(digit);
    }
    text
}
