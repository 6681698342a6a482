//! Whether the archive has the version that this crate needs.

use crate::{Error, raw};

/// The version of the interface that this crate is written for: `CINDROLF_VERSION` of include/cindrolf.h.
pub const VERSION: u64 = 3;

/// The archive's version.
fn archive_version() -> u64 {
    // Safety: it takes nothing and touches nothing.
    unsafe { raw::cindrolf_version() }
}

/// Whether the archive that is linked has the interface of this crate.
///
/// [`Log`](crate::Log) asks on its own. Who uses the other types or [`calls`](crate::calls) asks once at the start:
///
/// ```
/// cindrolf::check_version()?;
/// # Ok::<(), cindrolf::Error>(())
/// ```
pub fn check_version() -> Result<(), Error> {
    matches_crate(archive_version())
}

fn matches_crate(version: u64) -> Result<(), Error> {
    if version == VERSION { Ok(()) } else { Err(Error::OtherVersion(version)) }
}

#[cfg(test)]
mod tests {
    use super::*;

    #[test]
    fn only_its_own() {
        assert_eq!(check_version(), Ok(()));
        assert_eq!(matches_crate(VERSION), Ok(()));
        assert_eq!(matches_crate(0), Err(Error::OtherVersion(0)));
        assert_eq!(matches_crate(VERSION + 1), Err(Error::OtherVersion(VERSION + 1)));
    }
}
