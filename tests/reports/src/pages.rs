//! Pages in Markdown: their headings, their links, the rows of their tables.

/// The lines of a page that stand in no block of code.
fn prose(page: &str) -> Vec<&str> {
    let mut code = false;
    page.lines()
        .filter(|line| {
            let fence = line.trim_start().starts_with("```");
            code ^= fence;
            !code && !fence
        })
        .collect()
}

/// The same as paragraphs, since the words of a link may go on over the end of a line. A row of a table is one by itself.
fn paragraphs(page: &str) -> Vec<String> {
    let mut paragraphs = vec![String::new()];
    for line in prose(page) {
        let alone = line.starts_with('|') || line.trim().is_empty();
        match paragraphs.last_mut() {
            Some(last) if !alone && !last.starts_with('|') => {
                *last = format!("{last} {}", line.trim()).trim().to_string()
            }
            _ => paragraphs.push(line.trim().to_string()),
        }
    }
    paragraphs
}

/// The anchors of a page's headings, as GitHub makes them: lower case, a `-` for each space, no punctuation, and a number behind all but
/// the first of those that are alike.
pub fn anchors(page: &str) -> Vec<String> {
    let mut anchors: Vec<String> = vec![];
    let mut plain: Vec<String> = vec![];
    for line in prose(page) {
        let title = line.trim_start_matches('#');
        let Some(title) = title.strip_prefix(' ').filter(|_| line.starts_with('#')) else {
            continue;
        };
        let anchor: String = title
            .trim()
            .to_lowercase()
            .chars()
            .filter(|sign| sign.is_alphanumeric() || matches!(sign, ' ' | '-' | '_'))
            .map(|sign| if sign == ' ' { '-' } else { sign })
            .collect();
        let alike = plain.iter().filter(|other| **other == anchor).count();
        anchors.push(match alike {
            0 => anchor.clone(),
            _ => format!("{anchor}-{alike}"),
        });
        plain.push(anchor);
    }
    anchors
}

/// A piece of a text: where a link leads, or what stands in a code span outside of links.
#[derive(Clone, Debug, PartialEq, Eq)]
pub enum Piece {
    Link(String),
    Code(String),
}

/// The target of a link whose words begin a text, after their bracket, and what follows the link.
fn link(text: &str) -> Option<(&str, &str)> {
    let (words, rest) = text.split_once("](")?;
    if words.contains(['[', ']']) {
        return None;
    }
    let (target, rest) = rest.split_once(')')?;
    Some((target.split(' ').next().unwrap_or(""), rest))
}

/// The links and code spans of a paragraph, a row or a cell, in their order.
pub fn pieces(text: &str) -> Vec<Piece> {
    let mut pieces = vec![];
    let mut rest = text;
    while let Some(at) = rest.find(['[', '`']) {
        let is_code = rest[at..].starts_with('`');
        rest = &rest[at + 1..];
        if is_code {
            let Some((code, after)) = rest.split_once('`') else {
                break;
            };
            pieces.push(Piece::Code(code.to_string()));
            rest = after;
        } else if let Some((target, after)) = link(rest) {
            pieces.push(Piece::Link(target.to_string()));
            rest = after;
        }
    }
    pieces
}

/// Where the links of a page lead, all but those to other sites.
pub fn links(page: &str) -> Vec<String> {
    paragraphs(page)
        .iter()
        .flat_map(|paragraph| pieces(paragraph))
        .filter_map(|piece| match piece {
            Piece::Link(target) if !target.contains(':') => Some(target),
            _ => None,
        })
        .collect()
}

/// The cells of a table's row, or nothing if a line is none. A `\|` does not end a cell.
pub fn cells(line: &str) -> Option<Vec<String>> {
    let inner = line.trim_end().strip_prefix('|')?.strip_suffix('|')?;
    let kept = inner.replace("\\|", "\0");
    Some(kept.split('|').map(|cell| cell.trim().replace('\0', "\\|")).collect())
}

/// Whether a text has a name as a whole word: not next to a letter, a digit, `-`, `_` or `'`.
pub fn has_word(text: &str, name: &str) -> bool {
    let goes_on = |sign: Option<char>| sign.is_some_and(|sign| sign.is_alphanumeric() || "-_'".contains(sign));
    !name.is_empty()
        && text.match_indices(name).any(|(at, _)| {
            let (before, after) = (&text[..at], &text[at + name.len()..]);
            !goes_on(before.chars().next_back()) && !goes_on(after.chars().next())
        })
}
