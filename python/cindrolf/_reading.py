"""The readers of a log's words: the same for a log in memory and for a snapshot of a shared one."""

from __future__ import annotations

import ctypes
from typing import Any, Dict, List, NamedTuple, Optional, Tuple, Union

from . import _library
from ._errors import Refused
from ._values import NO_STEP, Numbers, Step, mark_name, mark_text, refusal_of, word, words_of


class Forecast(NamedTuple):
    """What a run of a plan would add."""

    entries: int
    ledgers: int
    refusals: int


class LedgerSum(NamedTuple):
    """A listed ledger, how many entries it has, and the sum of their values."""

    ledger: int
    entries: int
    sum: int


class RunTotal(NamedTuple):
    """The sum of a run: exact as `ones` and `parts` of 10^-12, and `rounded` once to thousandths. Its text is the exact sum."""

    ones: int
    parts: int
    rounded: int

    def __str__(self) -> str:
        return f"{self.ones}.{self.parts:012}"


class Words(NamedTuple):
    """The words of a log of one moment."""

    state: Any
    entries: Any
    marks: Any
    rights: Any


def given(answer: int) -> int:
    """An answer of a reader, unless it is a refusal."""
    refusal = refusal_of(answer)
    if refusal is not None:
        raise Refused(refusal)
    return answer


def view(words: Any, count: Optional[int] = None) -> memoryview:
    """A copy of words as a sequence of numbers that cannot be written, for numpy too."""
    memory = memoryview(bytes(words)).cast("Q")
    return memory if count is None else memory[:count]


class Reading:
    """What can be read of a log. Each call reads the log at that moment; all of a `Snapshot` is of one moment."""

    def _words(self) -> Words:
        raise NotImplementedError

    def _lent(self, words: Words) -> Tuple[Any, int, Any, int]:
        return words.state, len(words.state), words.entries, len(words.entries)

    def _read(self, name: str, *numbers: Any) -> Any:
        """Calls a reader that takes numbers."""
        return getattr(_library.log, name)(*self._lent(self._words()), *numbers)

    def well_formed(self) -> bool:
        """Whether the words hold a log."""
        return bool(self._read("cindrolf_well_formed"))

    def advise(self, client: int) -> Optional[Step]:
        """The step that a client should take next; none if another client is named and this one does not lead."""
        step = given(self._read("cindrolf_advise", word(client, "client")))
        return None if step == NO_STEP else Step(step)

    def entries(self) -> memoryview:
        """The words of all entries, in the order of their numbers, with their ledgers: see `ledger_of`, `client_of` and `value_of`.
        It is a sequence of numbers, and memory that numpy uses directly: ``numpy.asarray(log.entries())``, also for pandas."""
        words = self._words()
        return view(words.entries, _count(words))

    def chain(self) -> memoryview:
        """The words of the entries of all listed ledgers, in the order of the list, without their ledgers; a sequence like `entries`."""
        words = self._words()
        output = (ctypes.c_uint64 * len(words.entries))()
        read = _library.log.cindrolf_read_chain(*self._lent(words), output, len(output))
        given(read.answer)
        return view(output, read.count)

    def ledger(self, number: int) -> memoryview:
        """The words of a listed ledger's entries."""
        words = self._words()
        part = _library.log.cindrolf_read_ledger(*self._lent(words), word(number, "ledger"))
        given(part.answer)
        return view(words.entries)[part.start : part.start + part.count]

    def ledgers(self) -> List[LedgerSum]:
        """The listed ledgers in their order, each with its sum."""
        lent = self._lent(self._words())
        found: List[LedgerSum] = []
        while True:
            listed = _library.log.cindrolf_ledger_at(*lent, len(found) + 1)
            if refusal_of(listed.answer) == _NOT_LISTED:
                return found
            given(listed.answer)
            summed = _library.log.cindrolf_ledger_sum(*lent, listed.ledger)
            given(summed.answer)
            found.append(LedgerSum(listed.ledger, summed.entries, summed.sum))

    def total(self) -> RunTotal:
        """The sum of the run, exact and rounded once."""
        total = self._read("cindrolf_run_total")
        given(total.answer)
        return RunTotal(total.ones, total.parts, total.rounded)

    def first_window(self, window: int, limit: int) -> Optional[int]:
        """Where in the chain the first `window` entries in a row begin whose values add up to more than the limit, if there are any."""
        found = self._read("cindrolf_first_window", word(window, "window"), word(limit, "limit"))
        given(found.answer)
        return found.start if found.found else None

    def marks(self) -> Dict[str, int]:
        """The marks by their names, each with the log's entry count when it was set."""
        kept = view(self._words().marks)
        return {mark_text(kept[at]): kept[at + 1] >> 51 for at in range(0, len(kept), 2) if kept[at]}

    def read_mark(self, name: Union[str, bytes]) -> memoryview:
        """The chain as it was when the mark was set; a sequence like `chain`."""
        words = self._words()
        output = (ctypes.c_uint64 * len(words.entries))()
        lent = (*self._lent(words), words.marks, len(words.marks), mark_name(name))
        read = _library.log.cindrolf_mark_read(*lent, output, len(output))
        given(read.answer)
        return view(output, read.count)

    def rights(self) -> memoryview:
        """The words of rights, one for each client: ``log.rights()[client] & Step.WRITE.right``."""
        return view(self._words().rights)

    def forecast(self, plan: Numbers, budget: Optional[int] = None) -> Forecast:
        """What a run of the plan would add."""
        words = self._words()
        memory, count = words_of(plan, "plan")
        most = count if budget is None else word(budget, "budget")
        lent = (*self._lent(words), words.rights, len(words.rights))
        adds = _library.log.cindrolf_forecast(*lent, memory, count, most)
        return Forecast(adds.entries, adds.ledgers, adds.refusals)


#: The refusal of a place past the end of the list.
_NOT_LISTED = 15


def _count(words: Words) -> int:
    """How many entries a log has: the words that hold none are zero, and no entry is."""
    memory = view(words.entries)
    low, high = 0, len(memory)
    while low < high:
        middle = (low + high) // 2
        low, high = (middle + 1, high) if memory[middle] else (low, middle)
    return low


class Snapshot(Reading):
    """A shared log as it was at one moment, to read."""

    def __init__(self, words: Words, rows: int, clients: int) -> None:
        self._kept = words
        #: How many rows the log had.
        self.rows = rows
        #: How many clients the log has.
        self.clients = clients

    def _words(self) -> Words:
        return self._kept

    def state(self) -> memoryview:
        """The words of the state."""
        return view(self._kept.state)

    def entry_buffer(self) -> memoryview:
        """All words of the entry buffer, also those that hold no entry."""
        return view(self._kept.entries)
