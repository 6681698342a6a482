//! The rows of a log on a server, read by SQL, without the store.

use crate::cluster::Cluster;
use store_tests::journal::Row;

/// The kind of a write, whose input is a value.
const WRITE: u64 = 8;

/// The rows of the log of this name.
pub fn of_log(cluster: &Cluster, name: &str) -> Result<Vec<Row>, String> {
    let columns = format!(
        "SELECT r.seq, r.request, r.part, r.kind, r.client, a.answer, \
         CASE r.kind WHEN {WRITE} THEN ('x' || encode(r.input, 'hex'))::bit(64)::bigint ELSE 0 END \
         FROM cindrolf.rows AS r JOIN cindrolf.logs AS l USING (log) LEFT JOIN cindrolf.answers AS a USING (log, seq) \
         WHERE l.name = '{name}' ORDER BY r.seq"
    );
    let text = cluster.sql(&columns)?;
    text.lines().map(|line| row(line).ok_or_else(|| format!("a row reads '{line}'"))).collect()
}

fn row(line: &str) -> Option<Row> {
    let columns: Vec<Option<i64>> = line.split('|').map(|word| word.parse().ok()).collect();
    let &[seq, request, part, kind, client, answer, value] = &columns[..] else { return None };
    let (kind, value) = (kind? as u64, value? as u64);
    let [client, answer] = [client, answer].map(|number| number.map(|number| number as u64));
    Some(Row { seq: seq?, request: request?, part: part?, kind, client, value, answer })
}
