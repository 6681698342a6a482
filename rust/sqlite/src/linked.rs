//! The linked SQLite, and whether it can keep a log.

use crate::raw as sqlite;

/// The oldest one whose functions the views call, as 3.38.0 is numbered.
const OLDEST: i32 = 3_038_000;

/// Refuses an SQLite that is too old, or that is made for a single thread.
pub fn fit() -> Result<(), String> {
    // SAFETY: both have no conditions.
    let (version, threads) = unsafe { (sqlite::sqlite3_libversion_number(), sqlite::sqlite3_threadsafe()) };
    judge(version, threads)
}

fn judge(version: i32, threads: i32) -> Result<(), String> {
    if version < OLDEST {
        let number = format!("{}.{}.{}", version / 1_000_000, version / 1_000 % 1_000, version % 1_000);
        return Err(format!("SQLite {number} is linked: install 3.38 or a later one"));
    }
    if threads == 0 {
        return Err("the SQLite that is linked was built for a single thread: install another".into());
    }
    Ok(())
}

#[cfg(test)]
mod tests {
    use super::*;

    #[test]
    fn versions() {
        for (version, threads) in [(3_038_000, 1), (3_040_001, 2), (4_000_000, 1)] {
            assert_eq!(judge(version, threads), Ok(()));
        }
        let old = "SQLite 3.37.2 is linked: install 3.38 or a later one";
        assert_eq!(judge(3_037_002, 1), Err(old.into()));
        assert!(judge(3_040_001, 0).is_err());
        assert_eq!(fit(), Ok(()));
    }
}
