"""A log in a file or on a server, which controllers share."""

from __future__ import annotations

import ctypes
import os
import time
from typing import Any, Callable, Iterable, Iterator, List, NamedTuple, Optional, Union

from . import _library
from ._errors import Refused, of_status
from ._reading import Reading, Snapshot, Words
from ._steps import Steps
from ._values import Answer, Kind, Numbers, Status, Step, mark_name, refusal_of, scores_of, word, words_of

#: How long a wait is at a time, so that Python sees a signal such as Ctrl-C in between.
_SLICE = 0.1

Address = Union[str, bytes, "os.PathLike[str]"]


class Asked(NamedTuple):
    """A step of a batch: a `Step` or a `Kind`, its client, its value (for a mark the word of its name, for rights the word), its scores,
    and a note of up to 200 bytes for people, such as the name of a read."""

    kind: int
    client: int = 0
    value: int = 0
    scores: Numbers = ()
    note: Optional[str] = None

    @classmethod
    def mark(cls, name: Union[str, bytes], drop: bool = False) -> "Asked":
        """A mark that is set, or dropped."""
        return cls(Kind.DROP_MARK if drop else Kind.SET_MARK, value=mark_name(name))


class Checked(NamedTuple):
    """What a check counted: the rows, and those whose stored answer is not the log's."""

    rows: int
    wrong: int


class Store(Reading, Steps):
    """A log that controllers share, in a file or on a server: `open` and `create` give it.

    Each step is answered when it is on the disk. One thread at a time uses a store: open the log once for each thread. Use it as a context
    manager, so that it is closed. The reading functions look at the log each time; `snapshot` is all of one moment.
    """

    def __init__(self, handle: int) -> None:
        self._handle: Optional[int] = handle
        words = (ctypes.c_uint64 * _library.STATE_WORDS, ctypes.c_uint64 * _library.ENTRY_WORDS)
        self._room = words

    def __enter__(self) -> "Store":
        return self

    def __exit__(self, *exception: object) -> None:
        self.close()

    def __del__(self) -> None:
        handle, self._handle = getattr(self, "_handle", None), None
        if handle is not None:
            _library.store.cindrolf_store_close(handle, None, 0)

    def close(self) -> None:
        """Closes the log. No step depends on it: what was answered is stored. A second call does nothing."""
        if self._handle is None:
            return
        why = ctypes.create_string_buffer(_library.MESSAGE_BYTES)
        status = _library.store.cindrolf_store_close(self._handle, why, len(why))
        if status != Status.IN_USE:
            self._handle = None
        if status != Status.OK:
            raise of_status(status, why.value.decode(errors="replace"))

    def _fail(self, status: int) -> None:
        """Raises the error of the last call."""
        why, request = ctypes.create_string_buffer(_library.MESSAGE_BYTES), ctypes.c_uint64()
        _library.store.cindrolf_store_message(self._handle, why, len(why))
        if status == Status.UNKNOWN:
            _library.store.cindrolf_store_unknown_request(self._handle, ctypes.byref(request))
        raise of_status(status, why.value.decode(errors="replace"), request.value)

    def _call(self, name: str, *arguments: Any) -> None:
        """Calls a function that refuses nothing."""
        status = getattr(_library.store, name)(self._handle, *arguments)
        if status != Status.OK:
            self._fail(status)

    def _number(self, name: str, *arguments: Any) -> int:
        """Calls a function that gives a number."""
        number = ctypes.c_uint64()
        self._call(name, *arguments, ctypes.byref(number))
        return number.value

    def _answer(self, function: Callable[..., int], step: Optional[int], client: Optional[int], *arguments: Any) -> Answer:
        """Calls a function that answers, or is refused."""
        answer = ctypes.c_uint64()
        status = function(self._handle, *arguments, ctypes.byref(answer))
        if status == Status.REFUSED:
            raise Refused(refusal_of(answer.value) or 0, step, client)
        if status != Status.OK:
            self._fail(status)
        return Answer(answer.value)

    def take(self, step: int, client: int, value: int = 0) -> Answer:
        """Takes a step, and answers when it is on the disk. The value counts only for a write."""
        numbers = (word(step, "step"), word(client, "client"), word(value, "value"))
        return self._answer(_library.store.cindrolf_store_take, step, client, *numbers)

    def write_scores(self, client: int, scores: Numbers) -> Answer:
        """Adds an entry whose value is the sum of the error probabilities of these scores, in quarters of a Phred unit."""
        given = (word(client, "client"), *scores_of(scores))
        return self._answer(_library.store.cindrolf_store_write_scores, Step.WRITE, client, *given)

    def take_all(self, asked: Iterable[Asked]) -> List[Union[Answer, Refused]]:
        """Takes steps one after the other as one request: all of them are stored, or none, with one wait for the disk. Returns for each its
        answer or its refusal, which is not raised."""
        steps = list(asked)
        # What the library reads has to stay until the call is over.
        scores = [scores_of(step.scores) for step in steps]
        notes = [None if step.note is None else step.note.encode() for step in steps]
        if any(note is not None and 0 in note for note in notes):
            raise ValueError("a note has no zero byte")
        memory = (_library.Asked * len(steps))()
        for at, step in zip(memory, steps):
            at.kind, at.client, at.value = word(step.kind, "kind"), word(step.client, "client"), word(step.value, "value")
        for at, (lent, count), note in zip(memory, scores, notes):
            at.scores, at.scores_length, at.note = lent, count, note
        answers = (ctypes.c_uint64 * len(steps))()
        status = _library.store.cindrolf_store_take_all(self._handle, memory, len(steps), answers, len(steps))
        if status not in (Status.OK, Status.REFUSED):
            self._fail(status)
        return [_told(answer, step) for answer, step in zip(answers, steps)]

    def run_plan(self, plan: Numbers, budget: Optional[int] = None) -> int:
        """Takes the steps of a plan up to the budget as one request, and returns how many it took."""
        memory, count = words_of(plan, "plan")
        return self._number("cindrolf_store_run_plan", memory, count, count if budget is None else word(budget, "budget"))

    def set_mark(self, name: Union[str, bytes]) -> None:
        """Keeps a mark of this name at the log's entry count."""
        self._answer(_library.store.cindrolf_store_set_mark, None, None, mark_name(name))

    def drop_mark(self, name: Union[str, bytes]) -> None:
        """Drops the mark of this name."""
        self._answer(_library.store.cindrolf_store_drop_mark, None, None, mark_name(name))

    def grant(self, client: int, step: Step) -> None:
        """Gives a client the right to a step, for the steps of every process from now on."""
        self._answer(_library.store.cindrolf_store_grant, None, None, word(client, "client"), word(step, "step"))

    def revoke(self, client: int, step: Step) -> None:
        """Takes the right to a step from a client."""
        self._answer(_library.store.cindrolf_store_revoke, None, None, word(client, "client"), word(step, "step"))

    def set_rights(self, rights: Numbers) -> None:
        """Sets the rights from now on: 16 words, one for each client that a log can have."""
        self._answer(_library.store.cindrolf_store_set_rights, None, None, *words_of(rights, "rights"))

    def snapshot(self) -> Snapshot:
        """The log of this moment, to read."""
        state, entries = (kind() for kind in self._room)
        marks, rights = ((ctypes.c_uint64 * count)() for count in (_library.MARK_WORDS, _library.RIGHTS_WORDS))
        taken = _library.Taken()
        lent = [part for words in (state, entries, marks, rights) for part in (words, len(words))]
        self._call("cindrolf_store_snapshot", *lent, ctypes.byref(taken))
        if taken.entry_words < len(entries):
            entries = (ctypes.c_uint64 * taken.entry_words).from_buffer(entries)
        return Snapshot(Words(state, entries, marks, rights), taken.rows, taken.clients)

    def _words(self) -> Words:
        return self.snapshot()._words()

    def changed(self, timeout: Optional[float] = None) -> bool:
        """Waits until the log has rows that this store has neither read nor stored, up to so many seconds, and says whether it has. After
        `end_waiting` it does not wait."""
        until = None if timeout is None else time.monotonic() + timeout
        while True:
            left = _SLICE if until is None else min(_SLICE, max(0.0, until - time.monotonic()))
            if self._number("cindrolf_store_changed", int(left * 1000)):
                return True
            if _ending or until is not None and time.monotonic() >= until:
                return False

    def changes(self, timeout: Optional[float] = None) -> Iterator[Snapshot]:
        """A snapshot each time the log has rows that this store has neither read nor stored; it ends if none came for so many seconds."""
        while self.changed(timeout):
            yield self.snapshot()

    def settle(self, request: int) -> Optional[int]:
        """What became of the request of `Unknown`: how many rows come before its own, if it is stored."""
        found, rows = ctypes.c_uint64(), ctypes.c_uint64()
        self._call("cindrolf_store_settle", word(request, "request"), ctypes.byref(found), ctypes.byref(rows))
        return rows.value if found.value else None

    def last_row(self) -> str:
        """The last row that this store has read or stored, as N:CHAIN. Keep it: `has_row` checks later that the log has not lost it."""
        row = ctypes.create_string_buffer(_library.ROW_BYTES)
        self._call("cindrolf_store_last_row", row, len(row))
        return row.value.decode()

    def has_row(self, row: str) -> None:
        """Checks that the log still has a row and all before it; else it is `Damaged`."""
        self._call("cindrolf_store_has_row", _text(row))

    def check(self) -> Checked:
        """Checks the whole log, by taking each row once more; if it is inconsistent it is `Damaged`."""
        rows, wrong = ctypes.c_uint64(), ctypes.c_uint64()
        self._call("cindrolf_store_check", ctypes.byref(rows), ctypes.byref(wrong))
        return Checked(rows.value, wrong.value)

    def checkpoint(self) -> bool:
        """Copies what is stored from the files beside a log's file to the file itself, and says whether that is all of it."""
        return bool(self._number("cindrolf_store_checkpoint"))

    def copy(self, address: Address) -> None:
        """Copies the log as it is now to a new one, whole or not at all."""
        self._call("cindrolf_store_copy", _text(os.fspath(address)))

    def set_patience(self, seconds: float) -> None:
        """How long a call waits for another process, or for the server: 10 seconds until you change it."""
        if not seconds >= 0:
            raise ValueError(f"a time to wait is not {seconds} seconds")
        self._call("cindrolf_store_set_patience", word(int(min(seconds, 1e12) * 1000), "patience"))

    def set_process_name(self, name: str) -> None:
        """The name with which rows are stored from now on, for people to read."""
        self._call("cindrolf_store_set_process_name", _text(name))

    def keep_witness(self, file: Address) -> None:
        """From now on keeps the last row in this file. A log that has lost the row in the file is `Damaged`."""
        self._call("cindrolf_store_keep_witness", _text(os.fspath(file)))


def _told(answer: int, step: Asked) -> Union[Answer, Refused]:
    refusal = refusal_of(answer)
    if refusal is None:
        return Answer(answer)
    is_step = step.kind in (*Step, Kind.WRITE_SCORES)
    kind = Step.WRITE if step.kind == Kind.WRITE_SCORES else step.kind
    return Refused(refusal, kind, step.client) if is_step else Refused(refusal)


def _text(text: Union[str, bytes]) -> bytes:
    given = os.fsencode(text)
    if 0 in given:
        raise ValueError(f"{text!r} has a zero byte")
    return given


def _opened(function: Callable[..., int], address: Address, *arguments: Any) -> Store:
    handle, why = ctypes.c_void_p(), ctypes.create_string_buffer(_library.MESSAGE_BYTES)
    status = function(_text(os.fspath(address)), *arguments, ctypes.byref(handle), why, len(why))
    if status != Status.OK or handle.value is None:
        raise of_status(status, why.value.decode(errors="replace"))
    return Store(handle.value)


def open(address: Address, read_only: bool = False) -> Store:
    """Opens a log: a file, or ``postgresql://HOST/DATABASE/LOG`` on a server. If there is none, it is `Missing`."""
    functions = _library.store
    return _opened(functions.cindrolf_store_open_read_only if read_only else functions.cindrolf_store_open, address)


def create(address: Address, clients: int, small: bool = False) -> Store:
    """Makes a fresh log for 1 to 16 clients, of which client 0 is the named leader. If there is one already, it `Exists`."""
    if not 1 <= word(clients, "clients") <= 16:
        raise Refused(_CLIENT_COUNT)
    count = _library.SMALL_ENTRY_WORDS if small else _library.ENTRY_WORDS
    return _opened(_library.store.cindrolf_store_create, address, clients, count)


_CLIENT_COUNT = 17


#: Whether the process is to end.
_ending = False


def end_waiting() -> None:
    """From now on no call of this process waits longer than a second: use it before the process ends. A signal handler may call it."""
    global _ending
    _ending = True
    _library.store.cindrolf_store_end_waiting()
