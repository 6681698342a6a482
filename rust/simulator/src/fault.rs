//! Mistakes that are planted, each of which the judge has to find.

/// A mistake.
#[derive(Clone, Copy, Debug, PartialEq, Eq)]
pub enum Fault {
    /// The kernel tells the answer of its own copy although rows came in between.
    TellsTheGuess,
    /// The kernel reads the reply the wrong way: it tells where rows came in between, and reads where none did.
    ReadsTheReplyTheWrongWay,
    /// The kernel takes any row for its own.
    TakesAnyRowForItsOwn,
    /// The kernel tells the answer although no reply came.
    TellsOnSilence,
    /// The kernel takes the step again, under a new id, where no reply came.
    TakesAgainOnSilence,
    /// The kernel refuses by a copy that was not read since the asking.
    RefusesOnAnOldCopy,
    /// The kernel says that a request was not taken although it was sent.
    WithdrawsWhatWasSent,
    /// The kernel appends again and again where rows came in between.
    AppendsForEver,
    /// The driver takes its own row, and takes it once more when it reads on.
    TakesItsRowTwice,
    /// The driver counts its own row and does not take it.
    CountsItsRowOnly,
    /// The driver reads past its own row.
    ReadsPastItsOwnRow,
    /// The driver listens to replies to what it sent earlier.
    HearsOldReplies,
    /// The driver counts its requests, and draws no number from the engine.
    DrawsNoNumber,
    /// The engine adds a row for each message, whatever its id.
    AppendsTheSameIdTwice,
    /// The engine takes a row of the same steps for the same request.
    FindsBySteps,
    /// The engine gives readers what it held a while ago.
    GivesOldRows,
    /// The engine compares only how many rows a controller knows.
    ComparesTheCount,
    /// The engine compares only the id of the last row that a controller knows.
    ComparesTheLastId,
    /// The engine gives the same numbers again after it has lost rows.
    GivesNumbersAgain,
}

impl Fault {
    /// All of them.
    pub const ALL: [Fault; 19] = [
        Fault::TellsTheGuess,
        Fault::ReadsTheReplyTheWrongWay,
        Fault::TakesAnyRowForItsOwn,
        Fault::TellsOnSilence,
        Fault::TakesAgainOnSilence,
        Fault::RefusesOnAnOldCopy,
        Fault::WithdrawsWhatWasSent,
        Fault::AppendsForEver,
        Fault::TakesItsRowTwice,
        Fault::CountsItsRowOnly,
        Fault::ReadsPastItsOwnRow,
        Fault::HearsOldReplies,
        Fault::DrawsNoNumber,
        Fault::AppendsTheSameIdTwice,
        Fault::FindsBySteps,
        Fault::GivesOldRows,
        Fault::ComparesTheCount,
        Fault::ComparesTheLastId,
        Fault::GivesNumbersAgain,
    ];
}
