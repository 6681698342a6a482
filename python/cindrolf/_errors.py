"""Why a call gave no answer: an exception for each status, and one for refusals."""

from __future__ import annotations

import ctypes
from typing import Any, Dict, Optional, Tuple, Type

from . import _library
from ._values import Status


class Error(Exception):
    """A call that failed."""

    #: The status of the call.
    status: Status = Status.INTERNAL

    @property
    def may_be_stored(self) -> bool:
        """Whether the step may be stored all the same. If false, it is not stored, and never will be."""
        return self.status in (Status.UNKNOWN, Status.UNWITNESSED, Status.INTERNAL)


class Refused(Error):
    """The log refused the call, and nothing is stored."""

    status = Status.REFUSED

    def __init__(self, number: int, step: Optional[int] = None, client: Optional[int] = None) -> None:
        #: The number of the refusal, 1 to 28.
        self.number = number
        #: The refusal in words, as ``write of client 7: the log is full``.
        self.sentence = sentence(number, step, client)
        super().__init__(f"{self.sentence} (refusal {number})")

    def __str__(self) -> str:
        return str(self.args[0])

    def __reduce__(self) -> Tuple[Any, ...]:
        return (_again, (self.number, self.sentence))


def _again(number: int, said: str) -> Refused:
    """A refusal that was pickled."""
    refused = Refused(number)
    refused.sentence, refused.args = said, (f"{said} (refusal {number})",)
    return refused


def sentence(number: int, step: Optional[int] = None, client: Optional[int] = None) -> str:
    """A refusal in words, by the proved library: with the step and the client if there are any, else only the reason."""
    text = ctypes.create_string_buffer(_library.TEXT_BYTES)
    named = step is not None and client is not None
    said = _library.log.cindrolf_sentence(step if named else 0, client if named else 0, number, text, len(text))
    if said.answer != 0:
        # A step above nine, or a client above 255, has no sentence of its own.
        return sentence(number) if named else f"refusal {number}"
    whole = text.raw[: said.length].decode("ascii")
    return whole if named else whole.split(": ", 1)[1]


class NotStored(Error):
    """Something failed, such as a full disk, and nothing is stored: try again."""

    status = Status.NOT_STORED


class Unknown(Error):
    """It is not known whether the step is stored: settle the request, or read the log, before you try again."""

    status = Status.UNKNOWN
    #: The request, for `Store.settle`; 0 in a file, where you read the log.
    request = 0


class Unwitnessed(Error):
    """The step is stored, and the witness file could not be written: read the log for the answer."""

    status = Status.UNWITNESSED


class Damaged(Error):
    """The log is inconsistent, or has lost rows: stop."""

    status = Status.DAMAGED


class Unreachable(Error):
    """The server cannot be reached, and nothing is stored: try again."""

    status = Status.UNREACHABLE


class Busy(Error):
    """Another process held the lock for longer than this one waits, and nothing is stored: try again."""

    status = Status.BUSY


class Full(Error):
    """The log takes no more rows: go on with another log."""

    status = Status.FULL


class Forbidden(Error):
    """The server forbids it to this user."""

    status = Status.FORBIDDEN


class ReadOnly(Error):
    """The log was opened only to read, or is of an earlier version."""

    status = Status.READ_ONLY


class Missing(Error):
    """There is no such log: create it."""

    status = Status.MISSING


class Exists(Error):
    """There is a log of this name already: open it."""

    status = Status.EXISTS


class NoLog(Error):
    """What is there is no log of this version, or no log can be kept there."""

    status = Status.NO_LOG


class OpenAgain(Error):
    """The file was replaced, or the process was forked: open the log again."""

    status = Status.OPEN_AGAIN


class BadArgument(Error):
    """An argument is wrong, and nothing was done."""

    status = Status.BAD_ARGUMENT


class Closed(Error):
    """The log was closed."""

    status = Status.BAD_HANDLE


class InUse(Error):
    """Another thread is using this log, and nothing was done: open it once for each thread."""

    status = Status.IN_USE


class Internal(Error):
    """The library has a fault: close the log, read it, and report the fault."""

    status = Status.INTERNAL


def of_status(status: int, message: str, request: int = 0) -> Error:
    """The exception of a status."""
    kinds: Dict[int, Type[Error]] = {kind.status: kind for kind in Error.__subclasses__() if kind is not Refused}
    error = kinds.get(status, Internal)(message or Status(status).text)
    if isinstance(error, Unknown):
        error.request = request
    return error
