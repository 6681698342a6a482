//! Names that people gave, as bytes, on one line.

/// As they are, or with escapes where there is anything but text.
pub fn printable(bytes: &[u8]) -> String {
    match str::from_utf8(bytes) {
        Ok(text) if !text.contains(char::is_control) => text.to_owned(),
        _ => bytes.escape_ascii().to_string(),
    }
}

#[cfg(test)]
mod tests {
    use super::*;

    #[test]
    fn names() {
        for (bytes, text) in
            [(&b"run 7.db"[..], "run 7.db"), ("größe".as_bytes(), "größe"), (b"a\nb\xff", "a\\nb\\xff")]
        {
            assert_eq!(printable(bytes), text);
        }
    }
}
