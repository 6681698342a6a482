//! Bytes and texts made safe to show: visible, as HTML or SVG, and as JSON inside a script element.

use std::fmt::Write;

/// The bytes as a text in which every character can be seen: ASCII as it is, letters and digits of any script, and all
/// else byte by byte as `\xNN`. A backslash is doubled.
///
/// ```
/// assert_eq!(trace::escape::visible(b"W\t0 \xff\\"), r"W\x090 \xff\\");
/// ```
pub fn visible(bytes: &[u8]) -> String {
    let mut text = String::with_capacity(bytes.len());
    for chunk in bytes.utf8_chunks() {
        for character in chunk.valid().chars() {
            match character {
                '\\' => text.push_str(r"\\"),
                ' '..='~' => text.push(character),
                _ if !character.is_ascii() && character.is_alphanumeric() => text.push(character),
                _ => hidden(&mut text, character.encode_utf8(&mut [0; 4]).as_bytes()),
            }
        }
        hidden(&mut text, chunk.invalid());
    }
    text
}

fn hidden(text: &mut String, bytes: &[u8]) {
    for byte in bytes {
        let _ = write!(text, r"\x{byte:02x}");
    }
}

/// The text as it stands in HTML or SVG, between tags or in a quoted attribute.
///
/// ```
/// assert_eq!(trace::escape::markup("<a & 'b'>"), "&lt;a &amp; &#39;b&#39;&gt;");
/// ```
pub fn markup(text: &str) -> String {
    let mut safe = String::with_capacity(text.len());
    for character in text.chars() {
        match character {
            '&' => safe.push_str("&amp;"),
            '<' => safe.push_str("&lt;"),
            '>' => safe.push_str("&gt;"),
            '"' => safe.push_str("&quot;"),
            '\'' => safe.push_str("&#39;"),
            _ => safe.push(character),
        }
    }
    safe
}

/// The text as a string of JSON that may stand inside a script element: what is no plain ASCII, and `<`, `>` and `&`,
/// are `\uNNNN`.
///
/// ```
/// assert_eq!(trace::escape::json("</script>\u{2028}"), r#""\u003c/script\u003e\u2028""#);
/// ```
pub fn json(text: &str) -> String {
    let mut safe = String::from("\"");
    for unit in text.encode_utf16() {
        match u8::try_from(unit) {
            Ok(byte @ b' '..=b'~') if !b"\"\\<>&".contains(&byte) => safe.push(byte as char),
            _ => {
                let _ = write!(safe, "\\u{unit:04x}");
            }
        }
    }
    safe + "\""
}

#[cfg(test)]
mod tests {
    use super::*;

    #[test]
    fn every_byte_is_visible() {
        let all: Vec<u8> = (0..=255).collect();
        let text = visible(&all);
        assert!(text.bytes().all(|byte| (b' '..=b'~').contains(&byte)), "{text}");
        assert!(text.starts_with(r"\x00\x01") && text.ends_with(r"\xfe\xff"));
        // 32 to 126 stand for themselves but the backslash, which is doubled; the other 161 take four characters each.
        assert_eq!(text.len(), 94 + 2 + 161 * 4);
    }

    #[test]
    fn letters_stay_and_what_turns_or_hides_text_does_not() {
        assert_eq!(visible("Übergabe 2".as_bytes()), "Übergabe 2");
        assert_eq!(
            visible("a\u{202e}b\u{2028}\u{200b}\u{feff}".as_bytes()),
            r"a\xe2\x80\xaeb\xe2\x80\xa8\xe2\x80\x8b\xef\xbb\xbf"
        );
        assert_eq!(visible(b"\xe2\x80"), r"\xe2\x80");
    }

    #[test]
    fn markup_has_no_tag_and_no_quote() {
        let safe = markup("</script><img src=x onerror='a()'>\"&lt;");
        assert_eq!(safe, "&lt;/script&gt;&lt;img src=x onerror=&#39;a()&#39;&gt;&quot;&amp;lt;");
    }

    #[test]
    fn json_ends_no_script_and_no_string() {
        assert_eq!(json("a\"b\\c"), r#""a\u0022b\u005cc""#);
        assert_eq!(json("<!--\n\u{1f600}"), r#""\u003c!--\u000a\ud83d\ude00""#);
    }
}
