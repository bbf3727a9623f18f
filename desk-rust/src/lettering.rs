//! Letters of a picture: a font of one width, so that how long a text is follows from its letters, on whatever machine it is shown.

use crate::markup::escaped;

/// The fonts, the first that is there.
pub const FONTS: &str = "'DejaVu Sans Mono', Menlo, Consolas, monospace";

/// How far a letter goes, of a font of size 1: the widest of the fonts.
const ADVANCE: f64 = 0.602;

/// So many columns of a name are shown.
pub const LONGEST: usize = 36;

/// Whether a letter of other scripts may be as wide as it likes: a font of its own shows it.
fn foreign(letter: char) -> bool {
    letter >= '\u{530}' && !matches!(letter, '\u{2000}'..='\u{206F}')
}

fn columns(letter: char) -> usize {
    1 + usize::from(foreign(letter))
}

/// How long a text is, in columns.
pub fn length(text: &str) -> usize {
    text.chars().map(columns).sum()
}

/// How long a text is in a font of a size.
pub fn width(text: &str, size: f64) -> f64 {
    length(text) as f64 * ADVANCE * size
}

/// How many columns there are in a room.
pub fn fitting(room: f64, size: f64) -> usize {
    (room / (ADVANCE * size)) as usize
}

/// A text of so many columns at the most: what is longer is left out in its middle.
pub fn shortened(text: &str, most: usize) -> String {
    if length(text) <= most {
        return text.to_string();
    }
    let half = most.saturating_sub(1) / 2;
    let within = |room: usize| {
        let mut taken = 0;
        move |letter: &char| {
            taken += columns(*letter);
            taken <= room
        }
    };
    let first: String = text.chars().take_while(within(half)).collect();
    let last: Vec<char> = text.chars().rev().take_while(within(half)).collect();
    format!("{first}…{}", last.into_iter().rev().collect::<String>())
}

/// A text in lines of so many columns, broken between words.
pub fn lines(text: &str, most: usize) -> Vec<String> {
    let mut lines: Vec<String> = vec![];
    for word in text.split(' ') {
        match lines.last_mut() {
            Some(line) if length(line) + 1 + length(word) <= most => *line += &format!(" {word}"),
            _ => lines.push(word.to_string()),
        }
    }
    lines
}

/// An element of text from a point on, in a font of a size, with attributes.
pub fn text(words: &str, [x, y]: [f64; 2], size: f64, attributes: &str) -> String {
    // other scripts are kept within their room
    let length = match words.chars().any(foreign) {
        true => format!(
            r#" textLength="{:.1}" lengthAdjust="spacingAndGlyphs""#,
            width(words, size)
        ),
        false => String::new(),
    };
    format!(
        r#"<text x="{x:.1}" y="{y:.1}" font-size="{size}"{length}{attributes}>{}</text>"#,
        escaped(words)
    )
}
