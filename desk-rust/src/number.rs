//! Numbers of a text: decimal, or hexadecimal after 0x; `_` may stand between digits.

use crate::lexer::Token;
use crate::problem::{first, Problem};
use crate::source::Span;

/// Something with its place in the text.
#[derive(Clone, Copy, Debug)]
pub struct Placed<T> {
    pub value: T,
    pub span: Span,
}

const MAY: &str = "a number, decimal as 16 or hexadecimal as 0x10";

/// So many letters of a token are told.
const TOLD: usize = 40;

/// A token's text, cut if it is long.
pub fn told(text: &str) -> String {
    match first(text, TOLD) {
        cut if cut.len() < text.len() => format!("{cut}.."),
        whole => whole.to_string(),
    }
}

/// The number that a token of digits is.
pub fn number(token: Token) -> Result<Placed<u64>, Problem> {
    let text = token.text;
    let problem = |code, found, mend| Problem {
        code,
        span: token.span,
        found,
        may: MAY.into(),
        mend,
    };
    let (digits, radix) = match text.strip_prefix("0x").or(text.strip_prefix("0X")) {
        Some(digits) => (digits, 16),
        None => (text, 10),
    };
    let apart = digits.starts_with('_') || digits.ends_with('_') || digits.contains("__");
    if digits.is_empty() || apart || !digits.chars().all(|digit| digit.is_digit(radix) || digit == '_') {
        return Err(problem(
            "not-a-number",
            format!("'{}' is not a number", told(text)),
            meant(text),
        ));
    }
    let plain = digits.bytes().filter(|digit| *digit != b'_');
    let value = plain.clone().try_fold(0u64, |value, digit| {
        let digit = (digit as char).to_digit(radix)?;
        value.checked_mul(radix.into())?.checked_add(digit.into())
    });
    let Some(value) = value else {
        let found = format!("{} is larger than any number here can be", told(text));
        return Err(problem("number-too-large", found, None));
    };
    if radix == 10 && digits.starts_with('0') && plain.count() > 1 {
        let found = format!("{} begins with 0: that could be meant as octal", told(text));
        let octal = u64::from_str_radix(&text.replace('_', ""), 8)
            .ok()
            .filter(|octal| *octal != value);
        let octal = octal.map_or(String::new(), |octal| format!(", or 0x{octal:X} if it is octal"));
        return Err(problem("leading-zero", found, Some(format!("write {value}{octal}"))));
    }
    Ok(Placed {
        value,
        span: token.span,
    })
}

/// As many decimal digits has no address that is not meant as hexadecimal, or very seldom.
const OF_A_MAP_FILE: usize = 7;

/// The address that a token of digits is. Map files and disassemblies print hexadecimal digits without 0x: decimal ones that are as many are
/// not taken for an address without a word.
pub fn address(token: Token) -> Result<Placed<u64>, Problem> {
    let digits = token.text.replace('_', "");
    let plain = digits.trim_start_matches('0');
    let alike = digits.len() >= OF_A_MAP_FILE && digits.bytes().all(|digit| digit.is_ascii_digit());
    match plain.parse::<u64>() {
        Ok(value) if alike => Err(Problem {
            code: "address-in-decimal",
            span: token.span,
            found: format!(
                "'{}' is decimal here, and looks like an address of a map file",
                told(token.text)
            ),
            may: "an address, hexadecimal after 0x".into(),
            mend: Some(format!("write 0x{plain}, or 0x{value:X} if it is meant as decimal")),
        }),
        _ => number(token),
    }
}

/// What may be meant by what is no number: hexadecimal digits without their 0x, or with an h behind them.
fn meant(text: &str) -> Option<String> {
    if text.starts_with("0b") || text.starts_with("0o") {
        return Some("write it in decimal or hexadecimal".into());
    }
    let digits = text.strip_suffix(['h', 'H']).unwrap_or(text);
    let hexadecimal = !digits.is_empty() && digits.len() <= 16 && digits.chars().all(|digit| digit.is_ascii_hexdigit());
    hexadecimal.then(|| format!("write 0x{digits}, if it is hexadecimal"))
}
