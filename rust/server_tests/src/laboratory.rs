//! A server with the schema and its roles, for tests that use SQL.

use crate::cluster::{Cluster, cluster_for};
use crate::sql_rows::{self, Chain, SqlStep, bytes};

/// Those who log in: their names, the roles that they are granted, and the clients to which they are admitted.
pub const PEOPLE: [(&str, &str, &[&str]); 9] = [
    ("c0", "cindrolf_controller", &["0"]),
    ("c1", "cindrolf_controller", &["1"]),
    ("c2", "cindrolf_controller", &["2"]),
    ("elects_itself", "cindrolf_controller", &["3, true"]),
    ("not_admitted", "cindrolf_controller", &[]),
    ("election", "cindrolf_controller", &["-2"]),
    ("administrator", "cindrolf_admin", &["-1"]),
    ("auditor", "cindrolf_auditor", &["-3"]),
    ("analyst", "cindrolf_reader", &[]),
];

/// A server with the schema.
pub struct Laboratory {
    /// The server.
    pub cluster: Cluster,
}

impl Laboratory {
    /// The laboratory of a test, or none where it is skipped. No test that uses it kills the server.
    pub fn of(test: &str) -> Option<Laboratory> {
        let cluster = cluster_for(test, "fsync = off")?;
        let people = PEOPLE.iter().flat_map(|(name, role, clients)| {
            let admitted = clients.iter().map(move |client| format!("SELECT cindrolf.admit('{name}', {client});"));
            [format!("CREATE ROLE {name} LOGIN; GRANT {role} TO {name};")].into_iter().chain(admitted)
        });
        let all: Vec<String> = [store::schema()].into_iter().chain(people).collect();
        cluster.sql(&all.join("\n")).expect("the schema, and those who log in");
        Some(Laboratory { cluster })
    }

    /// What SQL answers to one of them.
    pub fn ask(&self, who: &str, sql: &str) -> String {
        self.cluster.sql_as(who, sql).unwrap_or_else(|fault| panic!("{who}: {sql}\n{fault}"))
    }

    /// Makes a log for two clients, and gives its number and the chain value of its row 0.
    pub fn create(&self, name: &str) -> (u64, Chain) {
        let chain = sql_rows::fresh(4, 4096);
        let made = self.ask("c0", &format!("SELECT cindrolf.create_log('{name}', 1, 4, 4096, {})", bytes(&chain)));
        assert_eq!(made, "t", "{name}");
        let log = self.ask("c0", &format!("SELECT log FROM cindrolf.logs WHERE name = '{name}'"));
        (log.parse().expect("a number"), chain)
    }

    /// A start number of a log, for one of them.
    pub fn start(&self, who: &str, log: u64) -> u64 {
        self.ask(who, &format!("SELECT cindrolf.start({log})")).parse().expect("a number")
    }

    /// Appends a request, and gives the place of its first row, or -1.
    pub fn append(&self, who: &str, log: u64, known: (u64, Chain), request: u64, steps: &[SqlStep]) -> i64 {
        self.ask(who, &sql_rows::append(log, known, request, steps)).parse().expect("a number")
    }

    /// The rows of a log as a controller reads them, a line each.
    pub fn rows(&self, log: u64) -> Vec<String> {
        let select = format!("SELECT {} FROM cindrolf.rows WHERE log = {log} ORDER BY seq", sql_rows::READ);
        self.ask("c0", &select).lines().map(str::to_owned).collect()
    }

    /// The SQLSTATE of each of these statements, asked by one of them in one session, `00000` where it is done.
    pub fn states(&self, who: &str, statements: &[String]) -> Vec<String> {
        let each = statements.iter().map(|statement| format!("{statement};\n\\echo STATE :SQLSTATE\n"));
        let said = self.ask(who, &format!("\\set ON_ERROR_STOP off\n{}", each.collect::<String>()));
        let states: Vec<String> =
            said.lines().filter_map(|line| line.strip_prefix("STATE ")).map(str::to_owned).collect();
        assert_eq!(states.len(), statements.len(), "{who}: {said}");
        states
    }
}
