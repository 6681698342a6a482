//! Rights: which client may take which step, in a buffer of any length and content, as in the reference.

use crate::Step;

/// Words in the rights buffer, one for each client that a log can have.
pub const RIGHTS_WORDS: usize = 16;

/// The letters of the steps, in the order of their bits from the most significant.
const ORDER: &str = "NBAFLKCPWO";

/// The letter of a step. Both writes have the same.
fn letter(step: Step) -> char {
    match step {
        Step::Name => 'N',
        Step::Become => 'B',
        Step::Abdicate => 'A',
        Step::Fetch => 'F',
        Step::CloseLast => 'L',
        Step::Finish => 'K',
        Step::Create => 'C',
        Step::Append => 'P',
        Step::Write(_) | Step::WriteScores(_) => 'W',
        Step::CloseOwn => 'O',
    }
}

/// The bit of a client's word that a step needs.
pub fn bit(step: Step) -> u64 {
    let place = ORDER.find(letter(step)).expect("every step has a right");
    1 << (63 - place)
}

/// The rights of a log of so many clients that each has all ten.
pub fn all(client_count: u64) -> Vec<u64> {
    let ten = Step::ALL.into_iter().map(bit).fold(0, |word, bit| word | bit);
    (0..RIGHTS_WORDS as u64).map(|client| if client < client_count { ten } else { 0 }).collect()
}

/// Whether rights of the right length fit a log of so many clients: no bit is set that none of its clients can have.
pub fn well_formed(rights: &[u64], client_count: u64) -> bool {
    rights.iter().zip(all(client_count)).all(|(&word, possible)| word & !possible == 0)
}

/// Whether a client of the log has the right to a step.
pub fn allows(rights: &[u64], client: u64, step: Step) -> bool {
    rights[client as usize] & bit(step) != 0
}
