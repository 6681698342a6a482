//! Compares every refusal with the model, at the row at which it was decided.

use crate::journal::Row;
use crate::notes::Refused;
use model::plans::step;
use model::{Answer, words};

/// The log as the model has it after a row.
struct Model {
    state: Vec<u64>,
    entries: Vec<u64>,
    row: i64,
}

/// Takes the steps of a log's rows by the model, which has to answer the same where an answer is stored, and each refused
/// one where it was refused. Says how many refusals there were.
pub fn compare(rows: &[Row], clients: u64, entry_words: usize, refused: &[Refused]) -> Result<u64, String> {
    let mut refused = refused.to_vec();
    refused.sort_by_key(|refused| refused.row);
    if let Some(stale) = refused.iter().find(|refused| refused.row < refused.known) {
        return Err(format!("row {} was answered before {stale:?} was asked", stale.known));
    }
    let mut left = &refused[..];
    let mut model = Model { state: vec![0; 527], entries: vec![0; entry_words], row: 0 };
    words::fresh(&mut model.state, &mut model.entries, clients);
    model.refuses(&mut left)?;
    for row in rows {
        model.follow(row)?;
        model.refuses(&mut left)?;
    }
    match left.first() {
        Some(refused) => Err(format!("the log has {} rows, and {refused:?}", model.row)),
        None => Ok(refused.len() as u64),
    }
}

impl Model {
    /// Takes the step of a row.
    fn follow(&mut self, row: &Row) -> Result<(), String> {
        self.row += 1;
        let no_row = || format!("row {} is none", self.row);
        let (client, step) = row.client.zip(step(row.kind, row.value)).ok_or_else(no_row)?;
        let given = words::step(&mut self.state, &mut self.entries, client, step);
        if row.seq == self.row && row.answer.is_none_or(|answer| answer == answer_number(given)) {
            return Ok(());
        }
        Err(format!("row {} has the answer {:?}, and the model gives {given:?}", self.row, row.answer))
    }

    /// Has the model take what was refused at this row, and drops it from what is left.
    fn refuses(&self, left: &mut &[Refused]) -> Result<(), String> {
        while let Some(refused) = left.first().filter(|refused| refused.row == self.row) {
            *left = &left[1..];
            let step = step(refused.step, refused.value).ok_or_else(|| format!("there is no step of {refused:?}"))?;
            let (mut state, mut entries) = (self.state.clone(), self.entries.clone());
            let given = words::step(&mut state, &mut entries, refused.client, step);
            if given != Answer::Refused(refused.refusal) {
                return Err(format!("the model gives {given:?}, and {refused:?}"));
            }
        }
        Ok(())
    }
}

/// An answer by its number, as the reference has it.
fn answer_number(answer: Answer) -> u64 {
    match answer {
        Answer::Done => 0,
        Answer::WasClosed => 1,
        Answer::Behind => 2,
        Answer::Entry { number, place } => 1 << 32 | number << 16 | place,
        Answer::Refused(refusal) => 256 + refusal,
    }
}

#[cfg(test)]
mod tests {
    use super::*;
    use crate::journal;
    use crate::kinds::{changes, prepared};
    use crate::scratch::Scratch;

    // Client 1 does not lead: refused by 7. After row 4 client 0 may write, and before it may not: refused by 8.
    #[test]
    fn right_and_wrong_ones() {
        let room = Scratch::in_memory();
        let file = room.file("run.db");
        drop(prepared(&file, &changes()[8].before));
        let rows = journal::of_file(&file).expect("a log");
        let right = |client, refusal, known, row| {
            let refused = Refused { log: 0, client, step: 8, value: 7, refusal, known, row };
            compare(&rows, 2, 4096, &[refused]).is_ok()
        };
        assert!(right(1, 7, 4, 4) && right(1, 7, 0, 0) && right(0, 8, 2, 3) && right(2, 3, 4, 4));
        // Another number; accepted; older than what was known; and of a row that is not there.
        assert!(!right(1, 8, 4, 4) && !right(0, 8, 4, 4) && !right(0, 8, 4, 3) && !right(1, 7, 4, 5));
    }
}
