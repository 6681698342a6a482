//! A table without a log, to compare with: each row is an INSERT that commits by itself.

use crate::cluster::{Cluster, OWNER, address};
use postgres::{Connection, Fault};
use std::time::{Duration, Instant};

/// How long a statement may take.
const PATIENCE: Duration = Duration::from_secs(60);

/// Makes the table on a server.
pub fn make(cluster: &Cluster) {
    let columns = "seq bigint GENERATED ALWAYS AS IDENTITY PRIMARY KEY, client bigint, value bigint";
    cluster.sql(&format!("CREATE TABLE plain ({columns})")).expect("a table");
}

/// A connection that adds rows, and reads those that others have added.
pub struct Plain {
    connection: Connection,
    /// The last row that was read.
    read: i64,
}

impl Plain {
    /// Connects through a port of this computer.
    pub fn open(port: u16) -> Result<Plain, Fault> {
        let mut connection = Connection::open(&address(OWNER, &[port]))?;
        let settings = "SET synchronous_commit = on; SET plan_cache_mode = force_generic_plan; \
            PREPARE plain (bigint, bigint) AS INSERT INTO plain (client, value) VALUES ($1, $2); \
            PREPARE since (bigint) AS SELECT seq, client, value FROM plain WHERE seq > $1 ORDER BY seq; \
            SELECT coalesce(max(seq), 0) FROM plain";
        let read = connection.run(settings, Instant::now() + PATIENCE)?.number(0, 0).unwrap_or(0);
        Ok(Plain { connection, read })
    }

    /// Adds a row.
    pub fn write(&mut self, value: u64) -> Result<(), Fault> {
        self.connection.run(&format!("EXECUTE plain (0, {value})"), Instant::now() + PATIENCE).map(drop)
    }

    /// Reads the rows that are new.
    pub fn look(&mut self) -> Result<(), Fault> {
        let rows = self.connection.run(&format!("EXECUTE since ({})", self.read), Instant::now() + PATIENCE)?;
        if let Some(last) = rows.count().checked_sub(1) {
            self.read = rows.number(last, 0).unwrap_or(self.read);
        }
        Ok(())
    }
}
