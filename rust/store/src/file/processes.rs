//! Which processes step for a client, for people.

use super::schema::Format;
use super::store::FileStore;
use crate::Error;
use sqlite::Value;

/// How many of the last rows are looked at.
pub(crate) const LOOKED_AT: usize = 1_000;

/// Who steps for a client, by the last rows of the log.
#[derive(Clone, Debug, Default, PartialEq, Eq)]
pub struct Stepper {
    /// The process that stepped for the client last, if its row names it.
    pub last: Option<String>,
    /// Another one that steps in turns with it: two processes go as one client.
    pub other: Option<String>,
}

impl Stepper {
    /// The steppers of so many clients, by the client and the process of each step, from the last one on. Two take turns
    /// where another comes between two steps of the last.
    pub(crate) fn of_steps<'a>(clients: usize, steps: impl Iterator<Item = (i64, &'a str)>) -> Vec<Stepper> {
        let mut steppers = vec![Stepper::default(); clients];
        let mut others: Vec<Option<String>> = vec![None; clients];
        for (client, process) in steps {
            let Some(client) = usize::try_from(client).ok().filter(|&client| client < clients) else { continue };
            let (stepper, other) = (&mut steppers[client], &mut others[client]);
            match (&stepper.last, &*other) {
                (None, _) => stepper.last = Some(process.into()),
                (Some(last), None) if last != process => *other = Some(process.into()),
                (Some(last), Some(_)) if last == process => stepper.other.clone_from(other),
                _ => {}
            }
        }
        steppers
    }
}

impl FileStore {
    pub fn find_steppers(&mut self, clients: usize) -> Result<Vec<Stepper>, Error> {
        self.guarded(|link| {
            if link.engine.format == Format::Old {
                return Ok(vec![Stepper::default(); clients]);
            }
            let last = "SELECT client, process FROM journal WHERE kind <= 10 AND seq > ? ORDER BY seq DESC";
            let (from, mut steps) = (link.known().rows - LOOKED_AT as i64, Vec::new());
            link.engine.database.prepare(last)?.each(&[Value::Integer(from)], |row| {
                if let (Value::Integer(client), Value::Text(process)) = (row.value(0), row.value(1)) {
                    steps.push((client, process.to_owned()));
                }
                Ok::<(), Error>(())
            })?;
            Ok(Stepper::of_steps(clients, steps.iter().map(|(client, process)| (*client, process.as_str()))))
        })
    }
}
