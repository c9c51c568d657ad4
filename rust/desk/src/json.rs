//! JSON for other programs.

use std::fmt;

/// A value in JSON.
#[derive(Debug, Clone, PartialEq)]
pub enum Json {
    /// null
    Null,
    /// true or false
    Bool(bool),
    /// A number, as it is written.
    Number(String),
    /// A text.
    Text(String),
    /// A list.
    List(Vec<Json>),
    /// Names with their values, in order.
    Object(Vec<(&'static str, Json)>),
}

impl Json {
    /// A whole number.
    pub fn number(number: impl Into<i128>) -> Self {
        Json::Number(number.into().to_string())
    }

    /// A count.
    pub fn count(number: usize) -> Self {
        Json::Number(number.to_string())
    }

    /// A real: what JSON has no number for is a text.
    pub fn real(shown: String, finite: bool) -> Self {
        match finite {
            true => Json::Number(shown),
            false => Json::Text(shown),
        }
    }

    /// A text.
    pub fn text(text: &str) -> Self {
        Json::Text(text.into())
    }

    /// A list.
    pub fn list(items: impl IntoIterator<Item = Json>) -> Self {
        Json::List(items.into_iter().collect())
    }

    /// Names with their values.
    pub fn object(members: impl IntoIterator<Item = (&'static str, Json)>) -> Self {
        Json::Object(members.into_iter().collect())
    }
}

fn quoted(f: &mut fmt::Formatter<'_>, text: &str) -> fmt::Result {
    f.write_str("\"")?;
    for c in text.chars() {
        match c {
            '"' => f.write_str("\\\"")?,
            '\\' => f.write_str("\\\\")?,
            '\n' => f.write_str("\\n")?,
            c if c < ' ' || c == '\u{7f}' => write!(f, "\\u{:04x}", u32::from(c))?,
            c => write!(f, "{c}")?,
        }
    }
    f.write_str("\"")
}

impl fmt::Display for Json {
    fn fmt(&self, f: &mut fmt::Formatter<'_>) -> fmt::Result {
        match self {
            Json::Null => f.write_str("null"),
            Json::Bool(value) => write!(f, "{value}"),
            Json::Number(number) => f.write_str(number),
            Json::Text(text) => quoted(f, text),
            Json::List(items) => {
                for (i, item) in items.iter().enumerate() {
                    write!(f, "{}{item}", if i == 0 { "[" } else { ", " })?;
                }
                f.write_str(if items.is_empty() { "[]" } else { "]" })
            }
            Json::Object(members) => {
                for (i, (name, value)) in members.iter().enumerate() {
                    f.write_str(if i == 0 { "{" } else { ", " })?;
                    quoted(f, name)?;
                    write!(f, ": {value}")?;
                }
                f.write_str(if members.is_empty() { "{}" } else { "}" })
            }
        }
    }
}

#[cfg(test)]
mod tests {
    use super::Json;

    #[test]
    fn told() {
        let json = Json::object([
            ("a", Json::number(-5)),
            ("b", Json::list([Json::Bool(true), Json::Null])),
            ("c", Json::text("\"caf\u{e9}\"\\\n\u{1}\u{7f}")),
            ("d", Json::list([])),
            ("e", Json::object([])),
            ("f", Json::real("NaN".into(), false)),
        ]);
        let wanted = "{\"a\": -5, \"b\": [true, null], \"c\": \"\\\"caf\u{e9}\\\"\\\\\\n\\u0001\\u007f\", \
                      \"d\": [], \"e\": {}, \"f\": \"NaN\"}";
        assert_eq!(json.to_string(), wanted);
    }
}
