"""What steps take and answer: steps, answers, statuses, words, and the checks of numbers from Python."""

from __future__ import annotations

import ctypes
import enum
from array import array
from typing import Any, Iterable, NamedTuple, Optional, Sequence, Tuple, Union

from . import _library

#: The largest number that the log takes anywhere.
_WORD_LIMIT = 2**64 - 1
_VALUE_BITS = 52
_ENTRY = 1 << 32
_REFUSED = 256

#: The largest value of a read.
VALUE_LIMIT = (1 << _VALUE_BITS) - 1
#: The highest quality score, in quarters of a Phred unit.
SCORE_LIMIT = 372


class Step(enum.IntEnum):
    """The steps with which a client changes a log, by their numbers."""

    NAME = 0
    BECOME = 1
    ABDICATE = 2
    FETCH = 3
    CLOSE_LAST = 4
    FINISH = 5
    CREATE = 6
    APPEND = 7
    WRITE = 8
    CLOSE_OWN = 9

    @property
    def right(self) -> int:
        """The bit of the right to this step in a client's word of rights."""
        return 1 << (63 - self)


#: What the adviser answers where there is no step to take.
NO_STEP = 15
#: A client's word of rights with all ten.
ALL_RIGHTS = sum(step.right for step in Step)


class Kind(enum.IntEnum):
    """What a batch takes in addition to the ten steps, by its numbers."""

    WRITE_SCORES = 10
    SET_MARK = 11
    DROP_MARK = 12
    SET_RIGHTS = 13


class Status(enum.IntEnum):
    """How a call on a shared log ended."""

    OK = 0
    REFUSED = 1
    NOT_STORED = 2
    UNKNOWN = 3
    UNWITNESSED = 4
    DAMAGED = 5
    UNREACHABLE = 6
    BUSY = 7
    FULL = 8
    FORBIDDEN = 9
    READ_ONLY = 10
    MISSING = 11
    EXISTS = 12
    NO_LOG = 13
    OPEN_AGAIN = 14
    BAD_ARGUMENT = 15
    BAD_HANDLE = 16
    IN_USE = 17
    INTERNAL = 18

    @property
    def text(self) -> str:
        """What it means, and what to do."""
        text: bytes = _library.store.cindrolf_store_status_text(self)
        return text.decode()


class Answer(NamedTuple):
    """What a step that was not refused answers. Its text is as in a session's transcript, such as ``entry 0 place 0``."""

    #: The answer as the library gives it.
    number: int

    @property
    def done(self) -> bool:
        """The step is taken, and the next one follows."""
        return self.number == 0

    @property
    def was_closed(self) -> bool:
        """The last ledger was closed already: the leader creates one next."""
        return self.number == 1

    @property
    def behind(self) -> bool:
        """Another leader was faster: ask the adviser."""
        return self.number == 2

    @property
    def stored(self) -> bool:
        """The read is stored: `entry` and `place` say where."""
        return self.number >= _ENTRY

    @property
    def entry(self) -> Optional[int]:
        """The number of the stored read in the log, from 0."""
        return (self.number - _ENTRY) >> 16 if self.stored else None

    @property
    def place(self) -> Optional[int]:
        """The place of the stored read in its ledger, from 0."""
        return self.number & 0xFFFF if self.stored else None

    def __str__(self) -> str:
        if self.stored:
            return f"entry {self.entry} place {self.place}"
        return {0: "ok", 1: "was", 2: "behind"}.get(self.number, f"number {self.number}")


def refusal_of(number: int) -> Optional[int]:
    """The number of the refusal in an answer, if it is one."""
    return number - _REFUSED if _REFUSED < number < _ENTRY else None


def ledger_of(word: int) -> int:
    """The ledger of an entry's word; 0 in a word of the chain."""
    return word >> 56


def client_of(word: int) -> int:
    """The client that wrote an entry."""
    return word >> _VALUE_BITS & 15


def value_of(word: int) -> int:
    """The value of an entry, in parts of 10^-12."""
    return word & VALUE_LIMIT


def step_word(step: int, client: int, value: int = 0) -> int:
    """A step as a word of a plan."""
    if not (0 <= step <= 15 and 0 <= client <= 255 and 0 <= value <= VALUE_LIMIT):
        raise ValueError(f"step {step}, client {client} and value {value} have no room in a word of a plan")
    return step << 60 | client << _VALUE_BITS | value


def word(number: int, what: str) -> int:
    """A number for the library: ctypes alone would silently cut it to 64 bits."""
    if not isinstance(number, int):
        raise TypeError(f"{what} is a number, not {type(number).__name__}")
    if not 0 <= number <= _WORD_LIMIT:
        raise ValueError(f"{what} is 0 to 2^64 - 1, not {number}")
    return number


def mark_name(name: Union[str, bytes]) -> int:
    """The word of a mark's name, which has 1 to 8 bytes and no zero among them."""
    given = name.encode() if isinstance(name, str) else bytes(name)
    if not 0 < len(given) <= 8 or 0 in given:
        raise ValueError(f"the name of a mark has 1 to 8 bytes, none of them zero, and {name!r} does not")
    return int.from_bytes(given.ljust(8, b"\0"), "big")


def mark_text(name: int) -> str:
    """The name in a word of the marks."""
    return name.to_bytes(8, "big").rstrip(b"\0").decode(errors="backslashreplace")


#: Words or scores: any sequence of numbers, or anything with the buffer protocol and the right format, such as numpy's arrays.
Numbers = Any


def _buffer(numbers: Numbers, formats: str, what: str) -> Tuple[Any, int]:
    """The numbers as memory, copied at once if they are memory already, and how many there are."""
    code = formats[0]
    try:
        given = memoryview(numbers)
    except TypeError:
        try:
            given = memoryview(array(code, numbers))
        except (OverflowError, TypeError) as error:
            raise ValueError(f"{what} are whole numbers of at most {array(code).itemsize * 8} bits: {error}") from None
    if given.format not in formats or given.itemsize != array(code).itemsize:
        raise ValueError(f"{what} have the format '{given.format}', and not '{code}'")
    return given.tobytes(), given.nbytes // given.itemsize


def words_of(numbers: Numbers, what: str) -> Tuple[Any, int]:
    """Words for the library, and how many."""
    memory, count = _buffer(numbers, "QL", what)
    return (ctypes.c_uint64 * count).from_buffer_copy(memory) if count else None, count


def scores_of(numbers: Numbers) -> Tuple[Any, int]:
    """Scores for the library, and how many. One above 65535 is no score, and is refused here: 16 bits would cut it."""
    memory, count = _buffer(numbers, "H", "scores")
    return (ctypes.c_uint16 * count).from_buffer_copy(memory) if count else None, count


def plan(steps: Iterable[Sequence[int]]) -> "array[int]":
    """A plan of steps, each a step, a client and for a write a value, as an array of words."""
    return array("Q", [step_word(*step) for step in steps])
