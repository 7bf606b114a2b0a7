//! JSON, as far as scenarios have it: numbers are digits alone.
use std::collections::BTreeMap;

#[derive(Clone, Debug, PartialEq)]
pub enum Json {
    Null,
    Bool(bool),
    Number(u64),
    Text(String),
    List(Vec<Json>),
    Object(BTreeMap<String, Json>),
}

impl Json {
    pub fn of(text: &str) -> Json {
        let mut reader = Reader { left: text };
        let value = reader.value();
        assert!(reader.left.trim().is_empty(), "no JSON: {text}");
        value
    }

    pub fn get(&self, name: &str) -> Option<&Json> {
        match self {
            Json::Object(members) => members.get(name),
            _ => None,
        }
    }

    pub fn at(&self, name: &str) -> &Json {
        self.get(name).unwrap_or_else(|| panic!("no member {name} in {self:?}"))
    }

    pub fn number(&self, name: &str) -> u64 {
        match self.at(name) {
            Json::Number(number) => *number,
            other => panic!("no number {name}: {other:?}"),
        }
    }

    pub fn byte(&self, name: &str) -> u8 {
        self.number(name).try_into().unwrap()
    }

    pub fn list(&self) -> &[Json] {
        match self {
            Json::List(items) => items,
            other => panic!("no list: {other:?}"),
        }
    }

    pub fn text(&self) -> &str {
        match self {
            Json::Text(text) => text,
            other => panic!("no text: {other:?}"),
        }
    }

    /// The bytes that a text spells in hex.
    pub fn bytes(&self) -> Vec<u8> {
        let text = self.text();
        (0..text.len()).step_by(2).map(|at| u8::from_str_radix(&text[at..at + 2], 16).unwrap()).collect()
    }

    /// The name of an object's one member, and what stands behind it.
    pub fn variant(&self) -> (&str, &Json) {
        match self {
            Json::Object(members) if members.len() == 1 => {
                members.first_key_value().map(|(name, value)| (name.as_str(), value)).unwrap()
            }
            other => panic!("no variant: {other:?}"),
        }
    }

    /// An object of these members.
    pub fn object<const N: usize>(members: [(&str, Json); N]) -> Json {
        Json::Object(members.into_iter().map(|(name, value)| (name.into(), value)).collect())
    }
}

/// As a line of the library.
impl std::fmt::Display for Json {
    fn fmt(&self, f: &mut std::fmt::Formatter) -> std::fmt::Result {
        match self {
            Json::Null => f.write_str("null"),
            Json::Bool(is_so) => write!(f, "{is_so}"),
            Json::Number(number) => write!(f, "{number}"),
            Json::Text(text) => write!(f, "{text:?}"),
            Json::List(items) => {
                f.write_str("[")?;
                for (at, item) in items.iter().enumerate() {
                    write!(f, "{}{item}", if at == 0 { "" } else { "," })?;
                }
                f.write_str("]")
            }
            Json::Object(members) => {
                f.write_str("{")?;
                for (at, (name, value)) in members.iter().enumerate() {
                    write!(f, "{}{name:?}:{value}", if at == 0 { "" } else { "," })?;
                }
                f.write_str("}")
            }
        }
    }
}

struct Reader<'a> {
    left: &'a str,
}

impl Reader<'_> {
    fn eats(&mut self, token: &str) -> bool {
        let rest = self.left.trim_start().strip_prefix(token);
        self.left = rest.unwrap_or(self.left);
        rest.is_some()
    }

    fn value(&mut self) -> Json {
        if self.eats("null") {
            Json::Null
        } else if self.eats("true") {
            Json::Bool(true)
        } else if self.eats("false") {
            Json::Bool(false)
        } else if self.eats("\"") {
            Json::Text(self.text())
        } else if self.eats("[") {
            Json::List(self.items("]", Reader::value))
        } else if self.eats("{") {
            Json::Object(self.items("}", Reader::member).into_iter().collect())
        } else {
            self.left = self.left.trim_start();
            let end = self.left.find(|it: char| !it.is_ascii_digit()).unwrap_or(self.left.len());
            let number = self.left[..end].parse().unwrap_or_else(|_| panic!("no JSON: {}", self.left));
            self.left = &self.left[end..];
            Json::Number(number)
        }
    }

    fn items<T>(&mut self, end: &str, one: impl Fn(&mut Self) -> T) -> Vec<T> {
        let mut items = Vec::new();
        while !self.eats(end) {
            assert!(items.is_empty() || self.eats(","), "no comma: {}", self.left);
            items.push(one(self));
        }
        items
    }

    fn member(&mut self) -> (String, Json) {
        assert!(self.eats("\""), "no name: {}", self.left);
        let name = self.text();
        assert!(self.eats(":"), "no colon: {}", self.left);
        (name, self.value())
    }

    /// A text behind its quote; none of a scenario has an escape.
    fn text(&mut self) -> String {
        let (text, left) = self.left.split_once('"').expect("no end of a text");
        assert!(!text.contains('\\'), "an escape: {text}");
        self.left = left;
        text.into()
    }
}
