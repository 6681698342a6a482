"""A chained run log that controllers of DNA sequencers share.

`Log` is a log in memory. `open` and `create` give a `Store`: a log in a file or on a server, which other processes use at the same time.
Steps return an `Answer`; a refusal is raised as `Refused`, with its number and its sentence.

    with cindrolf.open("run.db") as log:
        while (step := log.advise(client)) is not None:
            print(step.name, log.take(step, client, value))
"""

from ._errors import (
    BadArgument,
    Busy,
    Closed,
    Damaged,
    Error,
    Exists,
    Forbidden,
    Full,
    Internal,
    InUse,
    Missing,
    NoLog,
    NotStored,
    OpenAgain,
    ReadOnly,
    Refused,
    Unknown,
    Unreachable,
    Unwitnessed,
    sentence,
)
from ._log import Log
from ._reading import Forecast, LedgerSum, Reading, RunTotal, Snapshot
from ._store import Asked, Checked, Store, create, end_waiting, open
from ._values import (
    ALL_RIGHTS,
    SCORE_LIMIT,
    VALUE_LIMIT,
    Answer,
    Kind,
    Status,
    Step,
    client_of,
    ledger_of,
    plan,
    step_word,
    value_of,
)

# The interfaces of the library and of the store.
__version__ = "3.1"

__all__ = [name for name in dir() if not name.startswith("_")]

# Tracebacks and pickles call each thing by the name that its users call it by.
for _name in __all__:
    if getattr(globals()[_name], "__module__", "").startswith(f"{__name__}._"):
        globals()[_name].__module__ = __name__
