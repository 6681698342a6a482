//! The names of marks as arguments, and the list of marks.

use crate::json::Json;
use crate::printable::printable;
use cindrolf::MarkName;
use std::fmt::Write;
use store::{Error, Latest, Store};

/// The name in these bytes, of which there are 1 to 8, none of them zero.
pub fn name(bytes: &[u8]) -> Option<MarkName> {
    let mut name = [0; 8];
    name.get_mut(..bytes.len())?.copy_from_slice(bytes);
    (!bytes.is_empty() && !bytes.contains(&0)).then_some(MarkName(name))
}

/// A name to be printed: as it was given, or with escapes where it has other bytes than text.
pub fn printed(MarkName(bytes): MarkName) -> String {
    let length = bytes.iter().rposition(|&byte| byte != 0).map_or(0, |last| last + 1);
    printable(&bytes[..length])
}

/// A line for each mark, or JSON.
pub fn list(store: &mut Store, as_json: bool) -> Result<String, Error> {
    let latest = store.latest()?;
    if as_json {
        return Ok(Json::Object(vec![("marks", json(latest))]).line());
    }
    let mut text = String::new();
    for (name, entries) in latest.mark_list() {
        let _ = writeln!(text, "mark {} entries {entries}", printed(name));
    }
    Ok(text)
}

/// The marks as a list.
pub fn json(latest: Latest<'_>) -> Json {
    let mark = |(name, entries): (MarkName, u64)| {
        Json::Object(vec![("name", printed(name).into()), ("entries", entries.into())])
    };
    Json::list(latest.mark_list().map(mark))
}

#[cfg(test)]
mod tests {
    use super::*;

    #[test]
    fn names() {
        assert_eq!(name(b"wash"), Some(MarkName(*b"wash\0\0\0\0")));
        assert_eq!(name(b"pre-wash"), Some(MarkName(*b"pre-wash")));
        for no_name in [&b""[..], b"pre-wash2", b"a\0"] {
            assert_eq!(name(no_name), None);
        }
    }

    #[test]
    fn as_printed() {
        assert_eq!(printed(MarkName(*b"wash\0\0\0\0")), "wash");
        assert_eq!(printed("größe".parse().unwrap()), "größe");
        assert_eq!(printed(MarkName(*b"a\nb\0\0\0\0\0")), "a\\nb");
        assert_eq!(printed(MarkName([0xFF, 0, 1, 0, 0, 0, 0, 0])), "\\xff\\x00\\x01");
    }
}
