//! A small strict reader of JSON, enough to check what the command writes.

use std::ops::Index;

/// A JSON value.
#[derive(Clone, Debug, PartialEq)]
pub enum Json {
    Number(i64),
    Text(String),
    List(Vec<Json>),
    Object(Vec<(String, Json)>),
}

impl Json {
    /// The value of a whole text.
    pub fn parse(text: &str) -> Json {
        let mut rest = text;
        let value = value(&mut rest);
        assert_eq!(rest, "", "something stands behind the value");
        value
    }

    pub fn number(&self) -> i64 {
        let Json::Number(number) = self else { panic!("{self:?} is no number") };
        *number
    }

    pub fn text(&self) -> &str {
        let Json::Text(text) = self else { panic!("{self:?} is no string") };
        text
    }

    pub fn list(&self) -> &[Json] {
        let Json::List(list) = self else { panic!("{self:?} is no list") };
        list
    }

    pub fn get(&self, name: &str) -> Option<&Json> {
        let Json::Object(pairs) = self else { panic!("{self:?} is no object") };
        assert!(pairs.iter().filter(|pair| pair.0 == name).count() < 2, "{name} stands twice");
        pairs.iter().find(|pair| pair.0 == name).map(|pair| &pair.1)
    }
}

impl Index<&str> for Json {
    type Output = Json;

    fn index(&self, name: &str) -> &Json {
        self.get(name).unwrap_or_else(|| panic!("no {name} in {self:?}"))
    }
}

fn take(rest: &mut &str, what: char) -> bool {
    let found = rest.strip_prefix(what);
    *rest = found.unwrap_or(rest);
    found.is_some()
}

fn value(rest: &mut &str) -> Json {
    if take(rest, '"') {
        Json::Text(string(rest))
    } else if take(rest, '[') {
        Json::List(items(rest, ']', value))
    } else if take(rest, '{') {
        Json::Object(items(rest, '}', |rest| {
            assert!(take(rest, '"'));
            let name = string(rest);
            assert!(take(rest, ':'));
            (name, value(rest))
        }))
    } else {
        let digits = rest.len() - rest.trim_start_matches(|c: char| c.is_ascii_digit()).len();
        let (number, behind) = rest.split_at(digits);
        assert!(number == "0" || !number.starts_with('0'), "{number}");
        *rest = behind;
        Json::Number(number.parse().unwrap())
    }
}

fn items<T>(rest: &mut &str, end: char, item: impl Fn(&mut &str) -> T) -> Vec<T> {
    let mut found = Vec::new();
    if take(rest, end) {
        return found;
    }
    loop {
        found.push(item(rest));
        if take(rest, end) {
            return found;
        }
        assert!(take(rest, ','), "neither a comma nor an end before {rest}");
    }
}

/// The rest of a string whose first quote was taken.
fn string(rest: &mut &str) -> String {
    let mut text = String::new();
    loop {
        let first = rest.chars().next().expect("the string is closed");
        *rest = &rest[first.len_utf8()..];
        match first {
            '"' => return text,
            '\\' => text.push(escape(rest)),
            _ => {
                assert!(first >= ' ', "a control byte in a string");
                text.push(first);
            }
        }
    }
}

fn escape(rest: &mut &str) -> char {
    let first = rest.chars().next().unwrap();
    *rest = &rest[1..];
    match first {
        '"' | '\\' => first,
        'n' => '\n',
        'r' => '\r',
        't' => '\t',
        'u' => {
            let (digits, behind) = rest.split_at(4);
            *rest = behind;
            char::from_u32(u32::from_str_radix(digits, 16).unwrap()).unwrap()
        }
        other => panic!("escape {other}"),
    }
}
