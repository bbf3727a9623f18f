//! A text with its name, and places in it.

/// A piece of a text, from one byte to before another.
#[derive(Clone, Copy, Debug, PartialEq, Eq, PartialOrd, Ord)]
pub struct Span {
    pub start: usize,
    pub end: usize,
}

/// A text, and what its file is called.
#[derive(Clone, Debug)]
pub struct Source {
    pub file: String,
    pub text: String,
}

/// Where a place is, counted from 1, in letters.
#[derive(Clone, Copy, Debug, PartialEq, Eq)]
pub struct Place {
    pub line: usize,
    pub column: usize,
}

impl Source {
    pub fn place(&self, at: usize) -> Place {
        let before = &self.text[..at];
        let start = before.rfind('\n').map_or(0, |end| end + 1);
        Place {
            line: before.matches('\n').count() + 1,
            column: before[start..].chars().count() + 1,
        }
    }

    /// The line that a place is in, without its end, and where it begins.
    pub fn line(&self, at: usize) -> (&str, usize) {
        let start = self.text[..at].rfind('\n').map_or(0, |end| end + 1);
        let rest = &self.text[start..];
        let line = rest.split('\n').next().unwrap_or("");
        (line.strip_suffix('\r').unwrap_or(line), start)
    }

    /// Where the last word of the text ends.
    pub fn end(&self) -> Span {
        let end = self.text.trim_end().len();
        Span { start: end, end }
    }

    /// A piece of the text with one space for each stretch of them.
    pub fn words(&self, span: Span) -> String {
        let words: Vec<&str> = self.text[span.start..span.end].split_whitespace().collect();
        words.join(" ")
    }
}
