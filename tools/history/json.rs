//! Values as JSON, printed in one line or, on top, a member a line.

use std::fmt;

pub enum Json {
    Number(usize),
    Text(String),
    List(Vec<Json>),
    Object(Vec<(String, Json)>),
}

impl Json {
    pub fn text(text: &str) -> Json {
        Json::Text(text.to_string())
    }

    pub fn object<'a>(members: impl IntoIterator<Item = (&'a str, Json)>) -> Json {
        Json::Object(members.into_iter().map(|(key, value)| (key.to_string(), value)).collect())
    }

    pub fn list<T>(items: impl IntoIterator<Item = T>, value: impl Fn(T) -> Json) -> Json {
        Json::List(items.into_iter().map(value).collect())
    }
}

/// In quotes, with what JSON wants escaped.
fn quoted(f: &mut fmt::Formatter, text: &str) -> fmt::Result {
    f.write_str("\"")?;
    for letter in text.chars() {
        match letter {
            '"' | '\\' => write!(f, "\\{letter}")?,
            letter if (letter as u32) < 32 => write!(f, "\\u{:04x}", letter as u32)?,
            letter => write!(f, "{letter}")?,
        }
    }
    f.write_str("\"")
}

/// The items between these signs, a comma between two.
fn between<T>(
    f: &mut fmt::Formatter,
    signs: [&str; 2],
    items: &[T],
    write: impl Fn(&mut fmt::Formatter, &T) -> fmt::Result,
) -> fmt::Result {
    f.write_str(signs[0])?;
    for (place, item) in items.iter().enumerate() {
        if place > 0 {
            f.write_str(", ")?;
        }
        write(f, item)?;
    }
    f.write_str(signs[1])
}

impl fmt::Display for Json {
    fn fmt(&self, f: &mut fmt::Formatter) -> fmt::Result {
        match self {
            Json::Number(number) => write!(f, "{number}"),
            Json::Text(text) => quoted(f, text),
            Json::List(items) => between(f, ["[", "]"], items, |f, item| write!(f, "{item}")),
            Json::Object(members) => between(f, ["{", "}"], members, |f, (key, value)| {
                quoted(f, key)?;
                write!(f, ": {value}")
            }),
        }
    }
}
