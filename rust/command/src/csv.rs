//! Fields with commas between them, as in RFC 4180, except that a line ends with byte 10 alone.

/// A line. A field that has a comma, a quote or a line end is in quotes.
pub fn line<T: AsRef<str>>(fields: &[T]) -> String {
    let fields: Vec<_> = fields.iter().map(|text| field(text.as_ref())).collect();
    fields.join(",") + "\n"
}

fn field(text: &str) -> String {
    if text.contains([',', '"', '\n', '\r']) { format!("\"{}\"", text.replace('"', "\"\"")) } else { text.into() }
}

/// The field of something that may be missing.
pub fn or_empty(value: Option<impl ToString>) -> String {
    value.map_or(String::new(), |value| value.to_string())
}

#[cfg(test)]
mod tests {
    use super::*;

    #[test]
    fn fields() {
        assert_eq!(line(&["a b", "", "7"]), "a b,,7\n");
        assert_eq!(line(&["a,b", "say \"x\"", "c\nd"]), "\"a,b\",\"say \"\"x\"\"\",\"c\nd\"\n");
        assert_eq!((or_empty(Some(7)), or_empty(None::<u64>)), ("7".into(), String::new()));
    }
}
