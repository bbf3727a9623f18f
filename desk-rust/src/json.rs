//! Answers for scripts: JSON (RFC 8259), two spaces further in at each step.

use std::fmt;

#[derive(Clone, Debug, PartialEq)]
pub enum Value {
    Null,
    Bool(bool),
    Number(u64),
    Text(String),
    List(Vec<Value>),
    /// In the order in which it is to be written.
    Object(Vec<(&'static str, Value)>),
}

pub fn object<const LENGTH: usize>(fields: [(&'static str, Value); LENGTH]) -> Value {
    Value::Object(fields.into())
}

pub fn list<T: Into<Value>>(values: impl IntoIterator<Item = T>) -> Value {
    Value::List(values.into_iter().map(Into::into).collect())
}

impl From<&str> for Value {
    fn from(text: &str) -> Value {
        Value::Text(text.to_string())
    }
}

impl From<String> for Value {
    fn from(text: String) -> Value {
        Value::Text(text)
    }
}

impl From<bool> for Value {
    fn from(yes: bool) -> Value {
        Value::Bool(yes)
    }
}

impl From<u64> for Value {
    fn from(number: u64) -> Value {
        Value::Number(number)
    }
}

impl From<usize> for Value {
    fn from(number: usize) -> Value {
        Value::Number(number as u64)
    }
}

impl<T: Into<Value>> From<Option<T>> for Value {
    fn from(value: Option<T>) -> Value {
        value.map_or(Value::Null, Into::into)
    }
}

/// A text in quotation marks.
fn quoted(text: &str, out: &mut fmt::Formatter) -> fmt::Result {
    out.write_str("\"")?;
    for letter in text.chars() {
        match letter {
            '"' => out.write_str("\\\"")?,
            '\\' => out.write_str("\\\\")?,
            '\n' => out.write_str("\\n")?,
            letter if (letter as u32) < 0x20 || letter == '\x7F' => write!(out, "\\u{:04x}", letter as u32)?,
            letter => write!(out, "{letter}")?,
        }
    }
    out.write_str("\"")
}

/// The parts of a list or an object, each on a line of its own.
fn spread<T>(
    out: &mut fmt::Formatter,
    depth: usize,
    [open, close]: [&str; 2],
    parts: &[T],
    write: impl Fn(&T, &mut fmt::Formatter) -> fmt::Result,
) -> fmt::Result {
    out.write_str(open)?;
    for (place, part) in parts.iter().enumerate() {
        let comma = if place == 0 { "" } else { "," };
        write!(out, "{comma}\n{:width$}", "", width = 2 * (depth + 1))?;
        write(part, out)?;
    }
    if !parts.is_empty() {
        write!(out, "\n{:width$}", "", width = 2 * depth)?;
    }
    out.write_str(close)
}

impl Value {
    fn write(&self, depth: usize, out: &mut fmt::Formatter) -> fmt::Result {
        match self {
            Value::Null => out.write_str("null"),
            Value::Bool(yes) => write!(out, "{yes}"),
            Value::Number(number) => write!(out, "{number}"),
            Value::Text(text) => quoted(text, out),
            Value::List(values) => spread(out, depth, ["[", "]"], values, |value, out| value.write(depth + 1, out)),
            Value::Object(fields) => spread(out, depth, ["{", "}"], fields, |(name, value), out| {
                quoted(name, out)?;
                out.write_str(": ")?;
                value.write(depth + 1, out)
            }),
        }
    }
}

impl fmt::Display for Value {
    fn fmt(&self, out: &mut fmt::Formatter) -> fmt::Result {
        self.write(0, out)
    }
}
