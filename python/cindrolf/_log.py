"""A log in memory: two buffers, which you persist."""

from __future__ import annotations

import ctypes
from typing import Any, Optional, Union

from . import _library
from ._errors import Refused
from ._reading import Reading, Words, given, view
from ._steps import Steps
from ._values import ALL_RIGHTS, Answer, Numbers, Step, mark_name, refusal_of, scores_of, word, words_of


class Log(Reading, Steps):
    """A log in memory, for 1 to 16 clients, of which client 0 is the named leader.

    Persist `state` and `entry_buffer` together after each step that is not refused; `Log.of_words` goes on from there. Each client has every
    right until you change that.

    >>> log = Log(2)
    >>> for step in (Step.BECOME, Step.FETCH, Step.CREATE, Step.APPEND):
    ...     answer = log.take(step, 0)
    >>> str(log.write(0, 201))
    'entry 0 place 0'
    >>> log.write(1, 202)
    Traceback (most recent call last):
    cindrolf.Refused: write of client 1: the client does not lead (refusal 7)
    """

    def __init__(self, clients: int, small: bool = False) -> None:
        count = _library.SMALL_ENTRY_WORDS if small else _library.ENTRY_WORDS
        self._state = (ctypes.c_uint64 * _library.STATE_WORDS)()
        self._entries = (ctypes.c_uint64 * count)()
        self._marks = (ctypes.c_uint64 * _library.MARK_WORDS)()
        self._rights = (ctypes.c_uint64 * _library.RIGHTS_WORDS)()
        given(_library.log.cindrolf_fresh(*self._buffers(), word(clients, "clients")))
        self._rights[:clients] = [ALL_RIGHTS] * clients

    @classmethod
    def of_words(cls, state: Numbers, entries: Numbers, marks: Optional[Numbers] = None) -> "Log":
        """The log in these words, which were those of `state`, `entry_buffer` and `mark_buffer`."""
        log = cls.__new__(cls)
        log._state, log._entries = (words_of(words, what)[0] for words, what in ((state, "state"), (entries, "entries")))
        log._marks = (ctypes.c_uint64 * _library.MARK_WORDS)() if marks is None else words_of(marks, "marks")[0]
        for what in (log._state, log._entries, log._marks):
            if what is None:
                raise Refused(_WRONG_LENGTH)
        # The first step that reads them all refuses what is no log, or has no such marks.
        if refusal_of(_library.log.cindrolf_mark_drop(*log._buffers(), log._marks, len(log._marks), 0)) != _NOT_KEPT:
            raise Refused(_NOT_WELL_FORMED if log._lengths_fit() else _WRONG_LENGTH)
        log._rights = (ctypes.c_uint64 * _library.RIGHTS_WORDS)()
        clients = next(count for count in range(1, 17) if log._advises(count - 1) and not log._advises(count))
        log._rights[:clients] = [ALL_RIGHTS] * clients
        return log

    def _lengths_fit(self) -> bool:
        lengths = (len(self._state), len(self._marks))
        wanted = (_library.STATE_WORDS, _library.MARK_WORDS)
        return lengths == wanted and len(self._entries) in (_library.ENTRY_WORDS, _library.SMALL_ENTRY_WORDS)

    def _advises(self, client: int) -> bool:
        return refusal_of(_library.log.cindrolf_advise(*self._buffers(), client)) is None

    def _buffers(self) -> Any:
        return self._state, len(self._state), self._entries, len(self._entries)

    def _words(self) -> Words:
        return Words(self._state, self._entries, self._marks, self._rights)

    def state(self) -> memoryview:
        """A copy of the state's words, to persist."""
        return view(self._state)

    def entry_buffer(self) -> memoryview:
        """A copy of all words of the entry buffer, to persist."""
        return view(self._entries)

    def mark_buffer(self) -> memoryview:
        """A copy of the words of the marks, to persist."""
        return view(self._marks)

    def take(self, step: int, client: int, value: int = 0) -> Answer:
        """Takes a step. The value counts only for a write."""
        lent = (*self._buffers(), self._rights, len(self._rights))
        numbers = (word(step, "step"), word(client, "client"), word(value, "value"))
        return _answered(_library.log.cindrolf_take_with(*lent, *numbers), step, client)

    def write_scores(self, client: int, scores: Numbers) -> Answer:
        """Adds an entry whose value is the sum of the error probabilities of these scores, in quarters of a Phred unit."""
        lent = (*self._buffers(), self._rights, len(self._rights), word(client, "client"))
        answer = _library.log.cindrolf_write_scores_with(*lent, *scores_of(scores))
        return _answered(answer, Step.WRITE, client)

    def run_plan(self, plan: Numbers, budget: Optional[int] = None) -> int:
        """Takes the steps of a plan up to the budget, and returns how many. A refused step counts, and the next is taken."""
        memory, count = words_of(plan, "plan")
        most = count if budget is None else word(budget, "budget")
        lent = (*self._buffers(), self._rights, len(self._rights), memory, count)
        return int(_library.log.cindrolf_run_plan(*lent, most))

    def set_mark(self, name: Union[str, bytes]) -> None:
        """Keeps a mark of this name at the log's entry count."""
        given(_library.log.cindrolf_mark_set(*self._buffers(), self._marks, len(self._marks), mark_name(name)))

    def drop_mark(self, name: Union[str, bytes]) -> None:
        """Drops the mark of this name."""
        given(_library.log.cindrolf_mark_drop(*self._buffers(), self._marks, len(self._marks), mark_name(name)))

    def grant(self, client: int, step: Step) -> None:
        """Gives a client the right to a step."""
        self._right(client, self._right(client) | Step(step).right)

    def revoke(self, client: int, step: Step) -> None:
        """Takes the right to a step from a client."""
        self._right(client, self._right(client) & ~Step(step).right)

    def _right(self, client: int, rights: Optional[int] = None) -> int:
        if not self._advises(word(client, "client")):
            raise Refused(_UNKNOWN_CLIENT)
        if rights is not None:
            self._rights[client] = rights
        return self._rights[client]


_WRONG_LENGTH, _NOT_WELL_FORMED, _UNKNOWN_CLIENT, _NOT_KEPT = 1, 2, 3, 23


def _answered(number: int, step: int, client: int) -> Answer:
    refusal = refusal_of(number)
    if refusal is not None:
        raise Refused(refusal, step, client)
    return Answer(number)
