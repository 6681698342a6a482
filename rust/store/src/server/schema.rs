//! The tables, functions, roles and views of logs on a server: the SQL that an administrator runs once.

use limits::{CLIENT_ROW_LIMIT, FIELD_LIMIT, LOG_NAME_LIMIT, NOTE_LIMIT, OTHER_ROW_LIMIT, PROCESS_LIMIT};

/// The version of the schema: it changes with any of its tables and functions. `cindrolf.version()` gives it.
pub const VERSION: i64 = 1;

/// What an administrator reads first.
const TITLE: &str = "\
-- The tables, functions, roles and views of run logs, for a database of PostgreSQL 14 or later.
-- Run it once, as the role that is to own them:
--
--     cindrolf schema | psql -v ON_ERROR_STOP=1 DATABASE
--
-- Then admit those who log in, as an instrument that steps for client 3:
--
--     GRANT cindrolf_controller TO instrument_3;
--     SELECT cindrolf.admit('instrument_3', 3);
";

/// Every object, in the order in which they are made.
const OBJECTS: [&str; 28] = [
    include_str!("sql/roles.sql"),
    include_str!("sql/logs.sql"),
    include_str!("sql/rows.sql"),
    include_str!("sql/starts.sql"),
    include_str!("sql/answers.sql"),
    include_str!("sql/members.sql"),
    include_str!("sql/kept.sql"),
    include_str!("sql/step.sql"),
    include_str!("sql/create_log.sql"),
    include_str!("sql/start.sql"),
    include_str!("sql/request.sql"),
    include_str!("sql/append.sql"),
    include_str!("sql/append_write.sql"),
    include_str!("sql/settle.sql"),
    include_str!("sql/answer.sql"),
    include_str!("sql/admit.sql"),
    include_str!("sql/import.sql"),
    include_str!("sql/views/parts.sql"),
    include_str!("sql/views/audits.sql"),
    include_str!("sql/views/steps.sql"),
    include_str!("sql/views/moves.sql"),
    include_str!("sql/views/entries.sql"),
    include_str!("sql/views/chain.sql"),
    include_str!("sql/views/ledgers.sql"),
    include_str!("sql/views/clients.sql"),
    include_str!("sql/views/marks.sql"),
    include_str!("sql/views/rights.sql"),
    include_str!("sql/views/total.sql"),
];

/// Comes last: it is about all of them.
const GRANTS: &str = include_str!("sql/grants.sql");

/// The SQL of a server's side, in one transaction.
pub fn schema() -> String {
    let objects = OBJECTS.into_iter().chain([GRANTS]).collect::<Vec<_>>().join("\n");
    let numbers = [
        ("{VERSION}", VERSION),
        ("{CLIENT_ROW_LIMIT}", CLIENT_ROW_LIMIT.into()),
        ("{OTHER_ROW_LIMIT}", OTHER_ROW_LIMIT.into()),
        ("{FIELD_LIMIT}", FIELD_LIMIT.into()),
        ("{NOTE_LIMIT}", NOTE_LIMIT as i64),
        ("{PROCESS_LIMIT}", PROCESS_LIMIT as i64),
        ("{LOG_NAME_LIMIT}", LOG_NAME_LIMIT as i64),
    ];
    let objects = numbers.iter().fold(objects, |text, (name, number)| text.replace(name, &number.to_string()));
    format!("{TITLE}\nBEGIN;\n\n{objects}\nCOMMIT;\n")
}

#[cfg(test)]
mod tests {
    use super::*;

    #[test]
    fn every_number_is_filled_in() {
        let open =
            schema().lines().find(|line| line.contains("LIMIT}") || line.contains("VERSION}")).map(str::to_owned);
        assert_eq!(open, None);
    }
}
