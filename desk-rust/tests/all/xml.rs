//! Reading XML, to see that a picture is well-formed: tags that are closed in their order, values in quotation marks, no letter that has to be
//! written otherwise, no name given twice.

use std::collections::BTreeSet;

#[derive(Clone, Debug, PartialEq)]
pub struct Element {
    pub name: String,
    pub attributes: Vec<(String, String)>,
    /// What stands directly in it.
    pub text: String,
    pub inside: Vec<Element>,
}

impl Element {
    pub fn at(&self, name: &str) -> &str {
        let found = self.attributes.iter().find(|(each, _)| each == name);
        found.map_or("", |(_, value)| value)
    }

    /// It and all elements in it, in their order.
    pub fn all(&self) -> Vec<&Element> {
        let inside = self.inside.iter().flat_map(Element::all);
        [self].into_iter().chain(inside).collect()
    }

    /// The elements of a name in it.
    pub fn named(&self, name: &str) -> Vec<&Element> {
        self.all().into_iter().filter(|element| element.name == name).collect()
    }

    /// The words that are shown in it, in their order.
    pub fn words(&self) -> String {
        let texts = self.named("text").into_iter().map(|text| text.text.as_str());
        texts.collect::<Vec<&str>>().join(" ")
    }
}

/// A text as it was before it was escaped. None if something in it had to be.
fn plain(text: &str) -> Option<String> {
    let mut parts = text.split('&');
    let mut plain = parts.next()?.to_string();
    for part in parts {
        let (name, rest) = part.split_once(';')?;
        plain.push(match name {
            "amp" => '&',
            "lt" => '<',
            "gt" => '>',
            "quot" => '"',
            _ => return None,
        });
        plain += rest;
    }
    let stands = |letter: char| letter == '\n' || !letter.is_control() && !matches!(letter, '\u{FFFE}' | '\u{FFFF}');
    (!text.contains(['<', '>']) && plain.chars().all(stands)).then_some(plain)
}

/// The attributes of a tag.
fn attributes(mut text: &str) -> Option<Vec<(String, String)>> {
    let mut all: Vec<(String, String)> = vec![];
    while !text.is_empty() {
        let (name, rest) = text.strip_prefix(' ')?.split_once("=\"")?;
        let (value, rest) = rest.split_once('"')?;
        let named = name.chars().all(|letter| letter.is_ascii_alphabetic() || letter == '-');
        if !named || name.is_empty() || all.iter().any(|(each, _)| each == name) {
            return None;
        }
        all.push((name.to_string(), plain(value)?));
        text = rest;
    }
    Some(all)
}

/// The one element that a text is, with an end of a line behind it.
pub fn element(text: &str) -> Option<Element> {
    let mut open: Vec<Element> = vec![];
    let mut ids = BTreeSet::new();
    let mut rest = text.strip_suffix('\n')?;
    loop {
        let (before, tag) = rest.split_once('<')?;
        match open.last_mut() {
            Some(last) => last.text += &plain(before)?,
            None if before.is_empty() => {}
            None => return None,
        }
        let (tag, after) = tag.split_once('>')?;
        rest = after;
        let closed = match tag.strip_prefix('/') {
            Some(name) => Some(open.pop().filter(|last| last.name == name)?),
            None => {
                let (tag, whole) = tag.strip_suffix('/').map_or((tag, false), |tag| (tag, true));
                let end = tag.find(' ').unwrap_or(tag.len());
                let element = Element {
                    name: tag[..end].to_string(),
                    attributes: attributes(&tag[end..])?,
                    text: String::new(),
                    inside: vec![],
                };
                let id = element.at("id").to_string();
                if !id.is_empty() && !ids.insert(id) {
                    return None;
                }
                if !whole {
                    open.push(element.clone());
                }
                whole.then_some(element)
            }
        };
        match (closed, open.last_mut()) {
            (Some(closed), Some(last)) => last.inside.push(closed),
            (Some(closed), None) => return rest.is_empty().then_some(closed),
            (None, _) => {}
        }
    }
}

#[test]
fn what_is_well_formed_is_read_and_nothing_else_is() {
    let read = element("<a b=\"1\" c=\"&lt;&amp;\">x<d/>y<e>&gt;</e></a>\n").expect("it is well-formed");
    assert_eq!((read.at("b"), read.at("c"), read.text.as_str()), ("1", "<&", "xy"));
    assert_eq!((read.all().len(), read.named("e")[0].text.as_str()), (3, ">"));
    for text in [
        "<a>",
        "<a></b>\n",
        "<a><b></a></b>\n",
        "<a/><b/>\n",
        "<a>&</a>\n",
        "<a>&nbsp;</a>\n",
        "<a>\x1B</a>\n",
        "<a b=1/>\n",
        "<a b=\"<\"/>\n",
        "<a b=\"1\" b=\"2\"/>\n",
        "<a><b id=\"x\"/><c id=\"x\"/></a>\n",
        "<a/>x\n",
        "x<a/>\n",
    ] {
        assert_eq!(element(text), None, "{text}");
    }
}
