//! The kernel's decisions, and what planted mistakes make of them.

use crate::fault::Fault;
use cindrolf::sharing;

pub use cindrolf::sharing::{Act, Phase, Seen, Turn};

/// What the kernel decides, or what it would decide with this mistake.
pub fn decide(phase: Phase, seen: Seen, fault: Option<Fault>) -> Turn {
    let mistaken = fault.and_then(|fault| mistaken(phase, seen, fault));
    mistaken.unwrap_or_else(|| sharing::decide(phase, seen).expect("the library is of this version"))
}

/// What a mistake of the kernel decides, where it makes a difference.
fn mistaken(phase: Phase, seen: Seen, fault: Fault) -> Option<Turn> {
    let tell = Turn { phase: Phase::Idle, act: Act::Tell };
    let stay = |act| Turn { phase, act };
    match (fault, phase, seen) {
        (Fault::TellsTheGuess, Phase::Waiting { .. }, Seen::Placed { .. }) => Some(tell),
        (Fault::ReadsTheReplyTheWrongWay, Phase::Waiting { .. }, Seen::Placed { known, place }) => {
            Some(if known < place { tell } else { stay(Act::Read) })
        }
        (Fault::TakesAnyRowForItsOwn, Phase::Waiting { .. }, Seen::Next { .. }) => Some(tell),
        (Fault::TellsOnSilence, Phase::Waiting { .. }, Seen::Silence) => Some(tell),
        (Fault::TakesAgainOnSilence, Phase::Waiting { .. }, Seen::Silence) => {
            Some(Turn { phase: Phase::Asked, act: Act::Try })
        }
        (Fault::RefusesOnAnOldCopy, Phase::Asked, Seen::Refused) => Some(Turn { phase: Phase::Idle, act: Act::Refuse }),
        (Fault::WithdrawsWhatWasSent, Phase::Waiting { .. }, Seen::Stop) => {
            Some(Turn { phase: Phase::Idle, act: Act::Withdraw })
        }
        (Fault::AppendsForEver, Phase::Waiting { .. }, Seen::Placed { known, place }) if known < place => {
            Some(stay(Act::Append))
        }
        _ => None,
    }
}
