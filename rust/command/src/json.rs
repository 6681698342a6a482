//! Facts as JSON, for scripts: one object on one line.
//!
//! A number is always below 2^53, so that every reader has it exactly. Sums are texts with all their decimals.

use std::fmt;
use std::fmt::Write;
use std::path::Path;
use trace::escape;

/// A value of JSON.
pub enum Json {
    Null,
    Bool(bool),
    Number(u64),
    Text(String),
    List(Vec<Json>),
    Object(Vec<(&'static str, Json)>),
}

impl Json {
    /// The name of a file: bytes that are no text are `\xNN` in it.
    pub fn path(path: &Path) -> Json {
        let mut text = String::new();
        for chunk in path.as_os_str().as_encoded_bytes().utf8_chunks() {
            text += chunk.valid();
            for byte in chunk.invalid() {
                let _ = write!(text, "\\x{byte:02x}");
            }
        }
        Json::Text(text)
    }

    pub fn list(values: impl IntoIterator<Item = Json>) -> Json {
        Json::List(values.into_iter().collect())
    }

    /// The line that is printed.
    pub fn line(&self) -> String {
        format!("{self}\n")
    }
}

impl From<u64> for Json {
    fn from(number: u64) -> Json {
        Json::Number(number)
    }
}

impl From<bool> for Json {
    fn from(is: bool) -> Json {
        Json::Bool(is)
    }
}

impl From<&str> for Json {
    fn from(text: &str) -> Json {
        Json::Text(text.into())
    }
}

impl From<String> for Json {
    fn from(text: String) -> Json {
        Json::Text(text)
    }
}

impl<T: Into<Json>> From<Option<T>> for Json {
    fn from(value: Option<T>) -> Json {
        value.map_or(Json::Null, Into::into)
    }
}

impl fmt::Display for Json {
    fn fmt(&self, f: &mut fmt::Formatter<'_>) -> fmt::Result {
        match self {
            Json::Null => f.write_str("null"),
            Json::Bool(is) => write!(f, "{is}"),
            Json::Number(number) => write!(f, "{number}"),
            Json::Text(text) => f.write_str(&escape::json(text)),
            Json::List(values) => {
                let values: Vec<_> = values.iter().map(Json::to_string).collect();
                write!(f, "[{}]", values.join(", "))
            }
            Json::Object(fields) => {
                let fields: Vec<_> = fields.iter().map(|(name, value)| format!("\"{name}\": {value}")).collect();
                write!(f, "{{{}}}", fields.join(", "))
            }
        }
    }
}

#[cfg(test)]
mod tests {
    use super::*;
    use std::ffi::OsStr;
    use std::os::unix::ffi::OsStrExt;

    #[test]
    fn values() {
        let named = |bytes: &[u8]| Json::path(Path::new(OsStr::from_bytes(bytes))).to_string();
        assert_eq!(named(b"run.db"), r#""run.db""#);
        assert_eq!(named(b"a\"b\\c\n"), r#""a\u0022b\u005cc\u000a""#);
        assert_eq!(named(b"a\xff"), r#""a\u005cxff""#);
        let all = Json::Object(vec![
            ("none", Json::from(None::<u64>)),
            ("list", Json::list([Json::from(7), Json::from(true), Json::from("x")])),
            ("empty", Json::list([])),
        ]);
        assert_eq!(all.line(), "{\"none\": null, \"list\": [7, true, \"x\"], \"empty\": []}\n");
    }
}
