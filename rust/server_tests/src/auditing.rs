//! An audit for tests: reads the rows of a log by SQL, replays them with the library, and sends the answers to the
//! server.

use crate::laboratory::Laboratory;
use crate::sql_rows::{array, number};
use cindrolf::{Answer, Error, Kind, Log, MARK_WORDS, MarkName, Refusal, Rights, Step, value_of};

/// A log with its marks and rights.
pub struct Replayed {
    /// The log.
    pub log: Log,
    marks: [u64; MARK_WORDS],
    rights: Rights,
}

impl Replayed {
    fn fresh(client_count: u64) -> Replayed {
        let log = Log::fresh(client_count).expect("a log");
        Replayed { log, marks: [0; MARK_WORDS], rights: Rights::all(client_count).expect("a log") }
    }

    fn take(&mut self, kind: u64, client: u64, input: &[u8]) -> Result<Answer, Error> {
        let word = || u64::from_be_bytes(input.try_into().expect("8 bytes"));
        let name = || MarkName(input.try_into().expect("8 bytes"));
        match (kind, Kind::from_number(kind)) {
            (_, Some(kind)) => {
                let value = if kind == Kind::Write { word() } else { 0 };
                self.log.under(&self.rights).take(client, Step::new(kind, value))
            }
            (10, _) => {
                let scores: Vec<u16> = input.chunks(2).map(|two| u16::from_le_bytes([two[0], two[1]])).collect();
                self.log.under(&self.rights).write_scores(client, &scores).map(Answer::Stored)
            }
            (11, _) => self.log.set_mark(&mut self.marks, name()).map(|()| Answer::Done),
            (12, _) => self.log.drop_mark(&mut self.marks, name()).map(|()| Answer::Done),
            _ => self.set_rights(client, word()).map(|()| Answer::Done),
        }
    }

    fn set_rights(&mut self, client: u64, word: u64) -> Result<(), Error> {
        let mut words = *self.rights.words();
        *usize::try_from(client).ok().and_then(|client| words.get_mut(client)).ok_or(Refusal::UnknownClient)? = word;
        let rights = Rights::from_words(words);
        // No log has this client: it is refused as unknown where the rights are well formed, and else before that.
        match self.log.under(&rights).name(u64::MAX) {
            Err(Error::Refused(Refusal::UnknownClient)) => self.rights = rights,
            refused => return refused,
        }
        Ok(())
    }

    /// The number of the answer to a row, and what a write of scores has stored.
    fn answer(&mut self, kind: u64, client: u64, input: &[u8]) -> (u64, Option<u64>) {
        match self.take(kind, client, input) {
            Ok(Answer::Stored(at)) if kind == 10 => {
                (Answer::Stored(at).number(), Some(value_of(self.log.entries()[at.number.0 as usize])))
            }
            Ok(answer) => (answer.number(), None),
            Err(Error::Refused(refusal)) => (256 + refusal.number(), None),
            Err(error) => panic!("{error}"),
        }
    }
}

fn bytes_of(digits: &str) -> Vec<u8> {
    let byte = |at| u8::from_str_radix(&digits[at..at + 2], 16).expect("digits");
    (0..digits.len()).step_by(2).map(byte).collect()
}

/// Audits the rows of a log of four clients that are not audited, and gives the log that all rows come to.
pub fn audit(lab: &Laboratory, log: u64) -> Replayed {
    let mut replayed = Replayed::fresh(4);
    let rows = lab.rows(log);
    let answers: Vec<(u64, Option<u64>)> = rows
        .iter()
        .map(|row| {
            let columns: Vec<&str> = row.split('|').collect();
            let client = columns[4].parse::<i64>().unwrap_or(0) as u64;
            replayed.answer(columns[3].parse().expect("a kind"), client, &bytes_of(columns[5]))
        })
        .collect();
    let numbers = array("bigint", answers.iter().map(|(answer, _)| answer.to_string()));
    let stored = array("bigint", answers.iter().map(|(_, stored)| number(*stored)));
    lab.ask("auditor", &format!("SELECT cindrolf.answer({log}, 1, {numbers}, {stored})"));
    replayed
}
