//! A strict reader of JSON for what the checker prints, and the checker's
//! strings put to it.

use std::collections::BTreeMap;

use checker::json::{array, object, or_null, string};
use checker::random::Random;

/// A value. The numbers that the checker prints are whole and not negative.
#[derive(Clone, Debug, PartialEq, Eq)]
pub enum Value {
    Null,
    Bool(bool),
    Number(u64),
    Text(String),
    Array(Vec<Value>),
    Object(BTreeMap<String, Value>),
}

impl Value {
    /// The member of an object that has it.
    pub fn at(&self, key: &str) -> &Value {
        match self {
            Value::Object(members) if members.contains_key(key) => &members[key],
            _ => panic!("no member {key} in {self:?}"),
        }
    }

    pub fn keys(&self) -> Vec<&str> {
        match self {
            Value::Object(members) => members.keys().map(String::as_str).collect(),
            _ => panic!("not an object: {self:?}"),
        }
    }

    pub fn number<T: TryFrom<u64>>(&self) -> T {
        match self {
            Value::Number(number) => T::try_from(*number).ok().expect("in range"),
            _ => panic!("not a number: {self:?}"),
        }
    }

    pub fn bool(&self) -> bool {
        match self {
            Value::Bool(value) => *value,
            _ => panic!("neither true nor false: {self:?}"),
        }
    }

    pub fn text(&self) -> &str {
        match self {
            Value::Text(text) => text,
            _ => panic!("not a string: {self:?}"),
        }
    }

    pub fn list(&self) -> &[Value] {
        match self {
            Value::Array(values) => values,
            _ => panic!("not an array: {self:?}"),
        }
    }

    /// The numbers of an array.
    pub fn numbers<T: TryFrom<u64>>(&self) -> Vec<T> {
        self.list().iter().map(Value::number).collect()
    }
}

/// The value of a text that is JSON and nothing more. A key that an object has
/// twice is wrong too.
pub fn read(text: &str) -> Result<Value, String> {
    let mut reader = Reader { rest: text };
    let value = reader.value()?;
    reader.blanks();
    match reader.rest {
        "" => Ok(value),
        _ => Err(reader.wrong("the end")),
    }
}

struct Reader<'a> {
    rest: &'a str,
}

impl Reader<'_> {
    fn wrong(&self, expected: &str) -> String {
        let rest: String = self.rest.chars().take(40).collect();
        format!("{expected} is expected at: {rest}")
    }

    fn blanks(&mut self) {
        self.rest = self.rest.trim_start_matches([' ', '\t', '\n', '\r']);
    }

    fn next(&mut self) -> Option<char> {
        let mut characters = self.rest.chars();
        let next = characters.next();
        self.rest = characters.as_str();
        next
    }

    /// Whether these characters come next; then they are read.
    fn takes(&mut self, text: &str) -> bool {
        match self.rest.strip_prefix(text) {
            Some(rest) => {
                self.rest = rest;
                true
            }
            None => false,
        }
    }

    fn value(&mut self) -> Result<Value, String> {
        self.blanks();
        for (name, value) in [
            ("null", Value::Null),
            ("true", Value::Bool(true)),
            ("false", Value::Bool(false)),
        ] {
            if self.takes(name) {
                return Ok(value);
            }
        }
        match self.rest.chars().next() {
            Some('"') => self.text().map(Value::Text),
            Some('[') => self.array(),
            Some('{') => self.object(),
            Some('0'..='9') => self.number(),
            _ => Err(self.wrong("a value")),
        }
    }

    fn number(&mut self) -> Result<Value, String> {
        let after = self.rest.trim_start_matches(|c: char| c.is_ascii_digit());
        let digits = &self.rest[..self.rest.len() - after.len()];
        match digits.parse() {
            Ok(number) if digits == "0" || !digits.starts_with('0') => {
                self.rest = after;
                Ok(Value::Number(number))
            }
            _ => Err(self.wrong("a number")),
        }
    }

    fn array(&mut self) -> Result<Value, String> {
        let mut values = Vec::new();
        self.list(["[", "]"], |reader| {
            values.push(reader.value()?);
            Ok(())
        })?;
        Ok(Value::Array(values))
    }

    fn object(&mut self) -> Result<Value, String> {
        let mut members = BTreeMap::new();
        self.list(["{", "}"], |reader| {
            reader.blanks();
            let key = reader.text()?;
            reader.blanks();
            if !reader.takes(":") {
                return Err(reader.wrong("a colon"));
            }
            let value = reader.value()?;
            match members.insert(key.clone(), value) {
                None => Ok(()),
                Some(_) => Err(format!("{key} is there twice")),
            }
        })?;
        Ok(Value::Object(members))
    }

    /// Items with a comma between two of them, inside these brackets.
    fn list(
        &mut self,
        [open, close]: [&str; 2],
        mut item: impl FnMut(&mut Self) -> Result<(), String>,
    ) -> Result<(), String> {
        assert!(self.takes(open));
        self.blanks();
        if self.takes(close) {
            return Ok(());
        }
        loop {
            item(self)?;
            self.blanks();
            if self.takes(close) {
                return Ok(());
            }
            if !self.takes(",") {
                return Err(self.wrong("a comma"));
            }
        }
    }

    fn text(&mut self) -> Result<String, String> {
        if !self.takes("\"") {
            return Err(self.wrong("a string"));
        }
        let mut units = Vec::new();
        loop {
            match self.next() {
                Some('"') => {
                    return String::from_utf16(&units).map_err(|_| "half a character".to_string())
                }
                Some('\\') => units.push(self.escape()?),
                Some(c) if c >= ' ' => units.extend_from_slice(c.encode_utf16(&mut [0; 2])),
                _ => return Err(self.wrong("the rest of a string")),
            }
        }
    }

    /// What stands after a backslash.
    fn escape(&mut self) -> Result<u16, String> {
        let character = match self.next() {
            Some(c @ ('"' | '\\' | '/')) => c,
            Some('b') => '\u{8}',
            Some('f') => '\u{c}',
            Some('n') => '\n',
            Some('r') => '\r',
            Some('t') => '\t',
            Some('u') => return self.unit(),
            _ => return Err(self.wrong("an escape")),
        };
        Ok(character as u16)
    }

    /// Four hexadecimal digits.
    fn unit(&mut self) -> Result<u16, String> {
        let digits = self.rest.get(..4).unwrap_or_default();
        if !digits.chars().all(|c| c.is_ascii_hexdigit()) {
            return Err(self.wrong("four digits"));
        }
        let unit = u16::from_str_radix(digits, 16).map_err(|_| self.wrong("four digits"))?;
        self.rest = &self.rest[4..];
        Ok(unit)
    }
}

#[test]
fn what_is_json() {
    let text = |text: &str| Value::Text(text.to_string());
    let object = |members: &[(&str, Value)]| {
        let members = members.iter().cloned();
        Value::Object(
            members
                .map(|(key, value)| (key.to_string(), value))
                .collect(),
        )
    };
    let cases = [
        ("null", Value::Null),
        (" true\n", Value::Bool(true)),
        ("false", Value::Bool(false)),
        ("0", Value::Number(0)),
        ("4294967295", Value::Number(4_294_967_295)),
        ("\"\"", text("")),
        (
            r#""a\"\\\/\b\f\n\r\t\u0041\ud83d\ude00""#,
            text("a\"\\/\u{8}\u{c}\n\r\tA😀"),
        ),
        ("[]", Value::Array(Vec::new())),
        (
            "[ 1 ,[2]]",
            Value::Array(vec![Value::Number(1), Value::Array(vec![Value::Number(2)])]),
        ),
        ("{}", object(&[])),
        (
            "{\"b\":[],\t\"a\" : {\"b\": 1}}",
            object(&[
                ("a", object(&[("b", Value::Number(1))])),
                ("b", Value::Array(Vec::new())),
            ]),
        ),
    ];
    for (json, expected) in cases {
        assert_eq!(read(json), Ok(expected), "{json}");
    }
}

#[test]
fn what_is_not_json() {
    for wrong in [
        "",
        " ",
        "nul",
        "True",
        "1 2",
        "01",
        "-1",
        "1.5",
        "1e3",
        "+1",
        "0x1",
        ".5",
        "18446744073709551616",
        "'a'",
        "\"a",
        "\"",
        "\"\\\"",
        "\"\\x\"",
        "\"\\u12\"",
        "\"\\u+123\"",
        "\"\\u12g4\"",
        "\"\\ud83d\"",
        "\"\\ude00\"",
        "\"a\nb\"",
        "\"a\tb\"",
        "[",
        "]",
        "[1",
        "[1,",
        "[1,]",
        "[,1]",
        "[1 2]",
        "[1}",
        "{",
        "}",
        "{\"a\"}",
        "{\"a\":}",
        "{\"a\":1,}",
        "{a:1}",
        "{\"a\" 1}",
        "{\"a\":1 \"b\":2}",
        "{\"a\":1,\"a\":1}",
        "{1:2}",
        "[]x",
        "{}{}",
        "{\"a\":1]",
    ] {
        assert!(read(wrong).is_err(), "{wrong}");
    }
}

/// Any text comes back, and stands in printable ASCII.
#[test]
fn strings() {
    let cases = [
        ("", "\"\""),
        ("plain", "\"plain\""),
        ("\"\\/", "\"\\\"\\\\/\""),
        (
            "\u{0}\n\u{1f} \u{7f}~",
            "\"\\u0000\\u000a\\u001f \\u007f~\"",
        ),
        ("é–😀", "\"\\u00e9\\u2013\\ud83d\\ude00\""),
    ];
    for (text, json) in cases {
        assert_eq!(string(text), json);
    }
    let mut random = Random::new(51);
    for _ in 0..2000 {
        let length = random.range(0, 12);
        let character = |_| {
            let most = random.pick(&[0x7F, 0xFF, 0xFFFF, 0x10_FFFF]);
            char::from_u32(random.range(0, most)).unwrap_or('"')
        };
        let text: String = (0..length).map(character).collect();
        let json = string(&text);
        assert!(
            json.bytes().all(|byte| (b' '..=b'~').contains(&byte)),
            "{json}"
        );
        assert_eq!(read(&json), Ok(Value::Text(text)));
    }
}

#[test]
fn arrays_and_objects() {
    assert_eq!(array([0u8; 0]), "[]");
    assert_eq!(array([1, 20]), "[1, 20]");
    assert_eq!(array([string("a"), string("\"")]), r#"["a", "\""]"#);
    assert_eq!(object([]), "{}");
    let members = [("a", "1".to_string()), ("b\"", array([2]))];
    assert_eq!(object(members), r#"{"a": 1, "b\"": [2]}"#);
    assert_eq!(or_null(Some(3)), "3");
    assert_eq!(or_null(None::<u8>), "null");
}
