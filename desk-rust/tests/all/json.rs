//! What the desk prints for scripts, read again: a reader of JSON (RFC 8259) that takes nothing else, and no numbers but whole ones.

#[derive(Clone, Debug, PartialEq)]
pub enum Json {
    Null,
    Bool(bool),
    Number(u64),
    Text(String),
    List(Vec<Json>),
    Object(Vec<(String, Json)>),
}

/// The one value that a text is.
pub fn read(text: &str) -> Json {
    let mut reader = Reader { rest: text };
    let value = reader.value();
    reader.space();
    assert_eq!(reader.rest, "", "something follows the value");
    value
}

impl Json {
    /// The field of a name, which there has to be.
    pub fn at(&self, name: &str) -> &Json {
        let Json::Object(fields) = self else {
            panic!("no object, so no '{name}': {self:?}");
        };
        let field = fields.iter().find(|(field, _)| field == name);
        &field.unwrap_or_else(|| panic!("no field '{name}': {self:?}")).1
    }

    pub fn list(&self) -> &[Json] {
        match self {
            Json::List(values) => values,
            _ => panic!("no list: {self:?}"),
        }
    }

    pub fn text(&self) -> &str {
        match self {
            Json::Text(text) => text,
            _ => panic!("no text: {self:?}"),
        }
    }

    pub fn number(&self) -> u64 {
        match self {
            Json::Number(number) => *number,
            _ => panic!("no number: {self:?}"),
        }
    }

    pub fn count(&self) -> usize {
        self.number() as usize
    }
}

struct Reader<'a> {
    rest: &'a str,
}

impl Reader<'_> {
    fn space(&mut self) {
        self.rest = self.rest.trim_start_matches([' ', '\n', '\r', '\t']);
    }

    /// Whether such a piece is next; if so it is passed over.
    fn passes(&mut self, piece: &str) -> bool {
        self.space();
        match self.rest.strip_prefix(piece) {
            Some(rest) => {
                self.rest = rest;
                true
            }
            None => false,
        }
    }

    fn take(&mut self, piece: &str) {
        let shown: String = self.rest.chars().take(40).collect();
        assert!(self.passes(piece), "'{piece}' is missing before '{shown}'");
    }

    fn value(&mut self) -> Json {
        for (word, value) in [
            ("null", Json::Null),
            ("true", Json::Bool(true)),
            ("false", Json::Bool(false)),
        ] {
            if self.passes(word) {
                return value;
            }
        }
        if self.passes("[") {
            return Json::List(self.parts("]", Reader::value));
        }
        if self.passes("{") {
            return Json::Object(self.parts("}", |reader| {
                let name = reader.text();
                reader.take(":");
                (name, reader.value())
            }));
        }
        if self.rest.starts_with('"') {
            return Json::Text(self.text());
        }
        self.number()
    }

    fn parts<T>(&mut self, close: &str, part: fn(&mut Self) -> T) -> Vec<T> {
        let mut parts = vec![];
        if self.passes(close) {
            return parts;
        }
        loop {
            parts.push(part(self));
            if self.passes(close) {
                return parts;
            }
            self.take(",");
        }
    }

    fn number(&mut self) -> Json {
        let end = self.rest.find(|sign: char| !sign.is_ascii_digit());
        let (digits, rest) = self.rest.split_at(end.unwrap_or(self.rest.len()));
        self.rest = rest;
        assert!(digits == "0" || !digits.starts_with('0'), "{digits} begins with 0");
        let number = digits.parse();
        Json::Number(number.unwrap_or_else(|error| panic!("'{digits}' is no number: {error}")))
    }

    fn text(&mut self) -> String {
        self.take("\"");
        let mut text = String::new();
        let mut signs = self.rest.chars();
        loop {
            match signs.next().expect("a text ends") {
                '"' => break,
                '\\' => text.push(match signs.next().expect("a sign follows") {
                    sign @ ('"' | '\\' | '/') => sign,
                    'n' => '\n',
                    'r' => '\r',
                    't' => '\t',
                    'u' => {
                        let code: String = signs.by_ref().take(4).collect();
                        let code = u32::from_str_radix(&code, 16).expect("four digits");
                        char::from_u32(code).expect("a letter")
                    }
                    sign => panic!("nothing is written as \\{sign}"),
                }),
                sign => {
                    assert!(sign >= ' ', "U+{:04X} stands in a text as it is", u32::from(sign));
                    text.push(sign);
                }
            }
        }
        self.rest = signs.as_str();
        text
    }
}

#[test]
fn json_is_read_and_nothing_else_is() {
    let value = read(" {\"a\": [1, null, true, \"b\\\"\\u001b\\n\"], \"c\": {}}\n");
    let list = vec![
        Json::Number(1),
        Json::Null,
        Json::Bool(true),
        Json::Text("b\"\x1B\n".into()),
    ];
    assert_eq!(value.at("a").list(), list);
    assert_eq!(value.at("c"), &Json::Object(vec![]));
    for wrong in ["", "[1,]", "{\"a\" 1}", "[1] 2", "01", "-1", "\"\n\"", "\"a"] {
        assert!(std::panic::catch_unwind(|| read(wrong)).is_err(), "{wrong} is read");
    }
}
