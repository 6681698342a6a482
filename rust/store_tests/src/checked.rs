//! What a check found, if nothing should be wrong.

use store::{Checked, Error};

/// How many rows a check counted. Every stored answer has to be the log's.
pub fn rows_of(checked: Result<Checked, Error>) -> Result<i64, Error> {
    let checked = checked?;
    assert_eq!(checked.wrong, [], "stored answers that the log does not give");
    Ok(checked.rows)
}
