//! Values as texts of SQL.

use std::fmt::Write;

/// A text. Where it has a zero byte, which PostgreSQL's texts have not, it ends there.
pub fn text(text: &str) -> String {
    let text = text.split('\0').next().unwrap_or_default();
    // As an escape string, since how a backslash is read depends on a setting of the server.
    format!("E'{}'", text.replace('\\', "\\\\").replace('\'', "''"))
}

/// Bytes.
pub fn bytes(bytes: &[u8]) -> String {
    let mut text = String::with_capacity(2 * bytes.len() + 6);
    text.push_str("E'\\\\x");
    for byte in bytes {
        let _ = write!(text, "{byte:02x}");
    }
    text + "'"
}

/// The bytes that a server printed, as `\x6f6b`.
pub fn bytes_of(text: &str) -> Option<Vec<u8>> {
    let (pairs, rest) = text.strip_prefix("\\x")?.as_bytes().as_chunks();
    let digit = |byte: u8| (byte as char).to_digit(16).map(|digit| digit as u8);
    let byte = |&[high, low]: &[u8; 2]| Some(digit(high)? << 4 | digit(low)?);
    if rest.is_empty() { pairs.iter().map(byte).collect() } else { None }
}

#[cfg(test)]
mod tests {
    use super::*;

    #[test]
    fn texts_and_bytes() {
        assert_eq!(text("it's a \\ and an é"), "E'it''s a \\\\ and an é'");
        assert_eq!(text("cut\0off"), "E'cut'");
        assert_eq!(bytes(&[0, 0x6f, 0xff]), "E'\\\\x006fff'");
        assert_eq!(bytes_of("\\x006fff"), Some(vec![0, 0x6f, 0xff]));
        assert_eq!(bytes_of("\\x"), Some(vec![]));
        for wrong in ["", "x", "\\x0", "\\x0g", "006f"] {
            assert_eq!(bytes_of(wrong), None, "{wrong}");
        }
    }
}
