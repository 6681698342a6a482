//! The functions of the archive, as include/cindrolf.h declares them. Nothing checks that these declarations match it.
//! They are public only for the comparison, which looks at what the safe functions do not return.

#[repr(C)]
pub struct LedgerPart {
    pub answer: u64,
    pub start: u64,
    pub count: u64,
}

#[repr(C)]
pub struct ChainCount {
    pub answer: u64,
    pub count: u64,
}

#[repr(C)]
pub struct ListedLedger {
    pub answer: u64,
    pub ledger: u64,
}

#[repr(C)]
pub struct SummedLedger {
    pub answer: u64,
    pub entries: u64,
    pub sum: u64,
}

#[repr(C)]
pub struct SummedRun {
    pub answer: u64,
    pub ones: u64,
    pub parts: u64,
    pub rounded: u64,
}

#[repr(C)]
pub struct WindowFound {
    pub answer: u64,
    pub found: u64,
    pub start: u64,
}

#[repr(C)]
pub struct PlanCounts {
    pub entries: u64,
    pub ledgers: u64,
    pub refusals: u64,
}

#[repr(C)]
pub struct SentenceBytes {
    pub answer: u64,
    pub length: u64,
}

#[repr(C)]
pub struct SentenceSaid {
    pub found: u64,
    pub step: u64,
    pub client: u64,
    pub refusal: u64,
}

#[repr(C)]
pub struct NextTurn {
    pub phase: u64,
    pub id: u64,
    pub act: u64,
}

// Operations that change both buffers, each with the numbers that it takes.
macro_rules! operations {
    ($($name:ident($($number:ident),*);)*) => {
        unsafe extern "C" {
            $(pub fn $name(
                state: *mut u64,
                state_len: usize,
                entries: *mut u64,
                entries_len: usize,
                $($number: u64,)*
            ) -> u64;)*
        }
    };
}

operations! {
    cindrolf_fresh(clients);
    cindrolf_name(client);
    cindrolf_become(client);
    cindrolf_abdicate(client);
    cindrolf_fetch(client);
    cindrolf_close_last(client);
    cindrolf_finish(client);
    cindrolf_create(client);
    cindrolf_append(client);
    cindrolf_write(client, value);
    cindrolf_close_own(client);
    cindrolf_take(step, client, value);
}

// The steps under rights, which are lent to be read.
macro_rules! steps_with {
    ($($name:ident($($number:ident),*);)*) => {
        unsafe extern "C" {
            $(pub fn $name(
                state: *mut u64,
                state_len: usize,
                entries: *mut u64,
                entries_len: usize,
                rights: *const u64,
                rights_len: usize,
                $($number: u64,)*
            ) -> u64;)*
        }
    };
}

steps_with! {
    cindrolf_name_with(client);
    cindrolf_become_with(client);
    cindrolf_abdicate_with(client);
    cindrolf_fetch_with(client);
    cindrolf_close_last_with(client);
    cindrolf_finish_with(client);
    cindrolf_create_with(client);
    cindrolf_append_with(client);
    cindrolf_write_with(client, value);
    cindrolf_close_own_with(client);
    cindrolf_take_with(step, client, value);
}

unsafe extern "C" {
    pub fn cindrolf_version() -> u64;
    pub fn cindrolf_decide(phase: u64, id: u64, seen: u64, first: u64, second: u64) -> NextTurn;
    pub fn cindrolf_request_id(start: u64, count: u64) -> u64;
    pub fn cindrolf_write_scores(
        state: *mut u64,
        state_len: usize,
        entries: *mut u64,
        entries_len: usize,
        client: u64,
        scores: *const u16,
        scores_len: usize,
    ) -> u64;
    pub fn cindrolf_write_scores_with(
        state: *mut u64,
        state_len: usize,
        entries: *mut u64,
        entries_len: usize,
        rights: *const u64,
        rights_len: usize,
        client: u64,
        scores: *const u16,
        scores_len: usize,
    ) -> u64;
    pub fn cindrolf_run_plan(
        state: *mut u64,
        state_len: usize,
        entries: *mut u64,
        entries_len: usize,
        rights: *const u64,
        rights_len: usize,
        plan: *const u64,
        plan_len: usize,
        budget: u64,
    ) -> u64;
    pub fn cindrolf_forecast(
        state: *const u64,
        state_len: usize,
        entries: *const u64,
        entries_len: usize,
        rights: *const u64,
        rights_len: usize,
        plan: *const u64,
        plan_len: usize,
        budget: u64,
    ) -> PlanCounts;
    pub fn cindrolf_well_formed(state: *const u64, state_len: usize, entries: *const u64, entries_len: usize) -> bool;
    pub fn cindrolf_advise(
        state: *const u64,
        state_len: usize,
        entries: *const u64,
        entries_len: usize,
        client: u64,
    ) -> u64;
    pub fn cindrolf_read_ledger(
        state: *const u64,
        state_len: usize,
        entries: *const u64,
        entries_len: usize,
        ledger: u64,
    ) -> LedgerPart;
    pub fn cindrolf_read_chain(
        state: *const u64,
        state_len: usize,
        entries: *const u64,
        entries_len: usize,
        output: *mut u64,
        output_len: usize,
    ) -> ChainCount;
    pub fn cindrolf_ledger_at(
        state: *const u64,
        state_len: usize,
        entries: *const u64,
        entries_len: usize,
        place: u64,
    ) -> ListedLedger;
    pub fn cindrolf_ledger_sum(
        state: *const u64,
        state_len: usize,
        entries: *const u64,
        entries_len: usize,
        ledger: u64,
    ) -> SummedLedger;
    pub fn cindrolf_run_total(
        state: *const u64,
        state_len: usize,
        entries: *const u64,
        entries_len: usize,
    ) -> SummedRun;
    pub fn cindrolf_first_window(
        state: *const u64,
        state_len: usize,
        entries: *const u64,
        entries_len: usize,
        window: u64,
        limit: u64,
    ) -> WindowFound;
    pub fn cindrolf_mark_set(
        state: *const u64,
        state_len: usize,
        entries: *const u64,
        entries_len: usize,
        marks: *mut u64,
        marks_len: usize,
        name: u64,
    ) -> u64;
    pub fn cindrolf_mark_drop(
        state: *const u64,
        state_len: usize,
        entries: *const u64,
        entries_len: usize,
        marks: *mut u64,
        marks_len: usize,
        name: u64,
    ) -> u64;
    pub fn cindrolf_mark_read(
        state: *const u64,
        state_len: usize,
        entries: *const u64,
        entries_len: usize,
        marks: *const u64,
        marks_len: usize,
        name: u64,
        output: *mut u64,
        output_len: usize,
    ) -> ChainCount;
    pub fn cindrolf_rearrange(words: *const u64, words_len: usize, bytes: *mut u8, bytes_len: usize) -> u64;
    pub fn cindrolf_restore(bytes: *const u8, bytes_len: usize, words: *mut u64, words_len: usize) -> u64;
    pub fn cindrolf_sentence(step: u64, client: u64, refusal: u64, text: *mut u8, text_len: usize) -> SentenceBytes;
    pub fn cindrolf_read_sentence(text: *const u8, text_len: usize) -> SentenceSaid;
}
