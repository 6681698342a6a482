//! Steps, batches of them, plans, marks and rights: each call one request.

use crate::failure::Failure;
use crate::handles::{Opaque, with};
use crate::memory::{Room, slice, text};
use cindrolf::{Answer, Kind, MarkName, Refusal, Right, Rights, Step, StepWord};
use std::ffi::{c_char, c_int};
use store::{Asked, Change, Store, Told};

/// What the library adds to the number of a refusal.
const REFUSED: u64 = 256;

/// The kinds of a batch that are no steps of a plan: the numbers of their rows.
const WRITE_SCORES: u64 = 10;
const SET_MARK: u64 = 11;
const DROP_MARK: u64 = 12;
const SET_RIGHTS: u64 = 13;

/// A step of a batch, as the header has it.
#[repr(C)]
#[derive(Clone, Copy)]
pub struct AskedStep {
    kind: u64,
    client: u64,
    value: u64,
    scores: *const u16,
    scores_length: usize,
    note: *const c_char,
}

/// The number of an answer, or of a refusal.
fn number(told: Told) -> u64 {
    told.map_or_else(|refusal| REFUSED + refusal.number(), Answer::number)
}

/// A call that is answered by one number, which a refusal gives too.
///
/// # Safety
///
/// The answer is null or the caller's to write to.
unsafe fn answered(
    handle: *const Opaque,
    answer: *mut u64,
    call: impl FnOnce(&mut Store) -> Result<Answer, Failure>,
) -> c_int {
    with(handle, |store| {
        let room = Room::optional(answer, "answer")?;
        let result = call(store);
        let told = match &result {
            Ok(answer) => Some(Ok(*answer)),
            Err(failure) => failure.refusal.map(Err),
        };
        if let Some(told) = told {
            // SAFETY: by the contract.
            unsafe { room.put(number(told)) };
        }
        result.map(drop)
    })
}

/// The kind of a step's number, as the library refuses one that is none.
fn kind(number: u64) -> Result<Kind, Failure> {
    Ok(Kind::from_number(number).ok_or(Refusal::UnknownStep)?)
}

/// Takes a step.
#[unsafe(no_mangle)]
pub unsafe extern "C" fn cindrolf_store_take(
    store: *mut Opaque,
    step: u64,
    client: u64,
    value: u64,
    answer: *mut u64,
) -> c_int {
    // SAFETY: by the header.
    unsafe { answered(store, answer, |store| Ok(store.take(client, Step::new(kind(step)?, value))?)) }
}

/// Takes a write of scores.
#[unsafe(no_mangle)]
pub unsafe extern "C" fn cindrolf_store_write_scores(
    store: *mut Opaque,
    client: u64,
    scores: *const u16,
    scores_length: usize,
    answer: *mut u64,
) -> c_int {
    let write = |store: &mut Store| {
        // SAFETY: by the header.
        let scores = unsafe { slice(scores, scores_length, "scores") }?;
        Ok(store.write_scores(client, scores)?.into())
    };
    // SAFETY: by the header.
    unsafe { answered(store, answer, write) }
}

/// Takes steps as one request.
#[unsafe(no_mangle)]
pub unsafe extern "C" fn cindrolf_store_take_all(
    store: *mut Opaque,
    asked: *const AskedStep,
    asked_length: usize,
    answers: *mut u64,
    answers_length: usize,
) -> c_int {
    with(store, |store| {
        // SAFETY: by the header.
        let asked = unsafe { slice(asked, asked_length, "asked") }?;
        let room = Room::new(answers, answers_length, "answers")?;
        if room.length() < asked.len() {
            return Err(Failure::argument(format!("{} answers have no room for {} steps", room.length(), asked.len())));
        }
        // SAFETY: by the header.
        let steps = (0..).zip(asked).map(|(index, asked)| unsafe { step_of(index, asked) });
        let told = store.take_all(&steps.collect::<Result<Vec<Asked>, Failure>>()?)?;
        let numbers: Vec<u64> = told.iter().copied().map(number).collect();
        // SAFETY: by the header.
        unsafe { room.fill(&numbers) };
        match told.first() {
            Some(&Err(refusal)) if told.iter().all(Result::is_err) => Err(refusal.into()),
            _ => Ok(()),
        }
    })
}

/// A step of a batch.
///
/// # Safety
///
/// Its pointers are as the header says.
unsafe fn step_of(index: usize, asked: &AskedStep) -> Result<Asked, Failure> {
    let &AskedStep { kind, client, value, scores, scores_length, note } = asked;
    let change = match kind {
        WRITE_SCORES => {
            // SAFETY: by the contract.
            let scores = unsafe { slice(scores, scores_length, &format!("scores of step {index}")) }?;
            Change::WriteScores(client, scores.to_vec())
        }
        SET_MARK => Change::SetMark(MarkName::from_word(value)),
        DROP_MARK => Change::DropMark(MarkName::from_word(value)),
        SET_RIGHTS => Change::SetRights(client, value),
        _ => match Kind::from_number(kind) {
            Some(kind) => Change::Step(client, Step::new(kind, value)),
            None => return Err(Failure::argument(format!("step {index} has the kind {kind}, which is none"))),
        },
    };
    let note = match note.is_null() {
        true => None,
        // SAFETY: by the contract.
        false => Some(unsafe { text(note, &format!("note of step {index}")) }?.to_owned()),
    };
    Ok(Asked { change, note })
}

/// Takes the steps of a plan as one request.
#[unsafe(no_mangle)]
pub unsafe extern "C" fn cindrolf_store_run_plan(
    store: *mut Opaque,
    plan: *const u64,
    plan_length: usize,
    budget: u64,
    taken: *mut u64,
) -> c_int {
    with(store, |store| {
        // SAFETY: by the header.
        let plan = unsafe { slice(plan, plan_length, "plan") }?;
        let room = Room::optional(taken, "taken")?;
        let count = store.run_plan(StepWord::from_words(plan), budget)?;
        // SAFETY: by the header.
        unsafe { room.put(count) };
        Ok(())
    })
}

/// Keeps a mark.
#[unsafe(no_mangle)]
pub unsafe extern "C" fn cindrolf_store_set_mark(store: *mut Opaque, name: u64, answer: *mut u64) -> c_int {
    let set = |store: &mut Store| Ok(store.set_mark(MarkName::from_word(name)).map(|()| Answer::Done)?);
    // SAFETY: by the header.
    unsafe { answered(store, answer, set) }
}

/// Drops a mark.
#[unsafe(no_mangle)]
pub unsafe extern "C" fn cindrolf_store_drop_mark(store: *mut Opaque, name: u64, answer: *mut u64) -> c_int {
    let drop = |store: &mut Store| Ok(store.drop_mark(MarkName::from_word(name)).map(|()| Answer::Done)?);
    // SAFETY: by the header.
    unsafe { answered(store, answer, drop) }
}

/// Gives a client a right.
#[unsafe(no_mangle)]
pub unsafe extern "C" fn cindrolf_store_grant(store: *mut Opaque, client: u64, step: u64, answer: *mut u64) -> c_int {
    let grant = |store: &mut Store| Ok(store.grant(client, kind(step)? as Right).map(|()| Answer::Done)?);
    // SAFETY: by the header.
    unsafe { answered(store, answer, grant) }
}

/// Takes a right from a client.
#[unsafe(no_mangle)]
pub unsafe extern "C" fn cindrolf_store_revoke(store: *mut Opaque, client: u64, step: u64, answer: *mut u64) -> c_int {
    let revoke = |store: &mut Store| Ok(store.revoke(client, kind(step)? as Right).map(|()| Answer::Done)?);
    // SAFETY: by the header.
    unsafe { answered(store, answer, revoke) }
}

/// Gives every client other rights.
#[unsafe(no_mangle)]
pub unsafe extern "C" fn cindrolf_store_set_rights(
    store: *mut Opaque,
    rights: *const u64,
    rights_length: usize,
    answer: *mut u64,
) -> c_int {
    let set = |store: &mut Store| {
        // SAFETY: by the header.
        let words = unsafe { slice(rights, rights_length, "rights") }?;
        let rights = Rights::from_words(words.try_into().map_err(|_| Refusal::WrongLength)?);
        Ok(store.set_rights(&rights).map(|()| Answer::Done)?)
    };
    // SAFETY: by the header.
    unsafe { answered(store, answer, set) }
}

#[cfg(test)]
mod tests {
    use super::*;

    #[test]
    fn kinds_are_those_of_rows() {
        let name = MarkName(*b"pre-wash");
        for (kind, change) in [
            (WRITE_SCORES, Change::WriteScores(1, vec![])),
            (SET_MARK, Change::SetMark(name)),
            (DROP_MARK, Change::DropMark(name)),
            (SET_RIGHTS, Change::SetRights(1, name.word())),
            (8, Change::Step(1, Step::write(name.word()))),
        ] {
            assert_eq!(change.kind(), kind);
            let (scores, note) = (std::ptr::null(), std::ptr::null());
            let asked = AskedStep { kind, client: 1, value: name.word(), scores, scores_length: 0, note };
            // SAFETY: null is no scores and no note.
            assert_eq!(unsafe { step_of(0, &asked) }.expect("a step"), Asked::from(change));
        }
    }
}
