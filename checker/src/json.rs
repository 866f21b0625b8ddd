//! JSON as text: printable ASCII, without an end of line.

use std::fmt::Display;

/// A member of an object: its key, and its value as JSON.
pub type Member = (&'static str, String);

/// A string; characters other than printable ASCII as escapes.
pub fn string(text: &str) -> String {
    let mut json = String::from("\"");
    for unit in text.encode_utf16() {
        match u8::try_from(unit) {
            Ok(byte @ (b'"' | b'\\')) => json.extend(['\\', char::from(byte)]),
            Ok(byte @ b' '..=b'~') => json.push(char::from(byte)),
            _ => json.push_str(&format!("\\u{unit:04x}")),
        }
    }
    json.push('"');
    json
}

/// An array of numbers, or of values that are JSON already.
pub fn array(values: impl IntoIterator<Item = impl Display>) -> String {
    let values = values.into_iter().map(|value| value.to_string());
    format!("[{}]", values.collect::<Vec<String>>().join(", "))
}

pub fn object(members: impl IntoIterator<Item = Member>) -> String {
    let members = members.into_iter();
    let members = members.map(|(key, value)| format!("{}: {value}", string(key)));
    format!("{{{}}}", members.collect::<Vec<String>>().join(", "))
}

/// A number, or a value that is JSON already; null where there is none.
pub fn or_null(value: Option<impl Display>) -> String {
    value.map_or("null".to_string(), |value| value.to_string())
}
