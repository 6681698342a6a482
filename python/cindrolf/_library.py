"""Finds the two libraries, and declares their functions as in include/cindrolf.h and include/cindrolf_store.h."""

from __future__ import annotations

import ctypes
import os
import sys
from ctypes import POINTER, c_char_p, c_int, c_size_t, c_uint16, c_uint64, c_void_p
from pathlib import Path
from typing import Any, Iterator, Tuple

VERSION = 3
STORE_VERSION = 1

STATE_WORDS = 527
ENTRY_WORDS = 4096
SMALL_ENTRY_WORDS = 512
MARK_WORDS = 64
RIGHTS_WORDS = 16
TEXT_BYTES = 96
MESSAGE_BYTES = 1024
ROW_BYTES = 64

#: Names the folder of both libraries, where they are not found by themselves.
ENVIRONMENT = "CINDROLF_LIBRARY_DIR"


def _folders() -> Iterator[Path]:
    """Where the libraries may be: beside the package, below a prefix or in a checkout; where they were when pip installed it;
    and below Python's own prefix."""
    package = Path(__file__).resolve().parent
    sources = package.parent
    if sources.name == "python":
        yield sources.parent.parent.parent / "lib"
        yield sources.parent / "target" / "installed" / "lib"
    try:
        from . import _installed  # type: ignore[attr-defined]
    except ImportError:
        pass
    else:
        if _installed.FOLDER:
            yield Path(_installed.FOLDER)
    yield Path(sys.prefix) / "lib"


def _load() -> Tuple[ctypes.CDLL, ctypes.CDLL]:
    names = (f"libcindrolf.so.{VERSION}", f"libcindrolf_store.so.{STORE_VERSION}")
    given = os.environ.get(ENVIRONMENT)
    folders = [Path(given)] if given else list(_folders())
    for folder in folders:
        if all((folder / name).is_file() for name in names):
            log, store = (ctypes.CDLL(str(folder / name)) for name in names)
            return log, store
    if not given:
        try:
            # The loader has its own folders, and those of LD_LIBRARY_PATH.
            log, store = (ctypes.CDLL(name) for name in names)
            return log, store
        except OSError:
            pass
    places = ", ".join(map(str, folders))
    raise ImportError(
        f"there are no {names[0]} and {names[1]} in {places}: run ./install PREFIX (or tools/libraries in a checkout), "
        f"and set {ENVIRONMENT} to PREFIX/lib where it is not found by itself"
    )


class Asked(ctypes.Structure):
    """struct cindrolf_store_asked."""

    _fields_ = [
        ("kind", c_uint64),
        ("client", c_uint64),
        ("value", c_uint64),
        ("scores", POINTER(c_uint16)),
        ("scores_length", c_size_t),
        ("note", c_char_p),
    ]


def _numbers(name: str, *fields: str) -> Any:
    """A struct of 64-bit numbers."""
    return type(name, (ctypes.Structure,), {"_fields_": [(field, c_uint64) for field in fields]})


Taken = _numbers("Taken", "rows", "clients", "entry_words")
_PlanCounts = _numbers("PlanCounts", "entries", "ledgers", "refusals")
_LedgerPart = _numbers("LedgerPart", "answer", "start", "count")
_ChainCount = _numbers("ChainCount", "answer", "count")
_ListedLedger = _numbers("ListedLedger", "answer", "ledger")
_SummedLedger = _numbers("SummedLedger", "answer", "entries", "sum")
_SummedRun = _numbers("SummedRun", "answer", "ones", "parts", "rounded")
_WindowFound = _numbers("WindowFound", "answer", "found", "start")
_SentenceBytes = _numbers("SentenceBytes", "answer", "length")
_SentenceSaid = _numbers("SentenceSaid", "found", "step", "client", "refusal")

_U = c_uint64
_WORDS = [POINTER(c_uint64), c_size_t]
_SCORES = [POINTER(c_uint16), c_size_t]
_LOG = _WORDS + _WORDS
_TEXT = [c_void_p, c_size_t]
_OUT = POINTER(c_uint64)

#: The functions of libcindrolf that this package calls: what each gives, and what it takes.
LOG_FUNCTIONS = {
    "cindrolf_version": (_U, []),
    "cindrolf_fresh": (_U, _LOG + [_U]),
    "cindrolf_well_formed": (ctypes.c_bool, _LOG),
    "cindrolf_take": (_U, _LOG + [_U, _U, _U]),
    "cindrolf_take_with": (_U, _LOG + _WORDS + [_U, _U, _U]),
    "cindrolf_write_scores": (_U, _LOG + [_U] + _SCORES),
    "cindrolf_write_scores_with": (_U, _LOG + _WORDS + [_U] + _SCORES),
    "cindrolf_run_plan": (_U, _LOG + _WORDS + _WORDS + [_U]),
    "cindrolf_forecast": (_PlanCounts, _LOG + _WORDS + _WORDS + [_U]),
    "cindrolf_advise": (_U, _LOG + [_U]),
    "cindrolf_read_ledger": (_LedgerPart, _LOG + [_U]),
    "cindrolf_read_chain": (_ChainCount, _LOG + _WORDS),
    "cindrolf_ledger_at": (_ListedLedger, _LOG + [_U]),
    "cindrolf_ledger_sum": (_SummedLedger, _LOG + [_U]),
    "cindrolf_run_total": (_SummedRun, _LOG),
    "cindrolf_first_window": (_WindowFound, _LOG + [_U, _U]),
    "cindrolf_mark_set": (_U, _LOG + _WORDS + [_U]),
    "cindrolf_mark_drop": (_U, _LOG + _WORDS + [_U]),
    "cindrolf_mark_read": (_ChainCount, _LOG + _WORDS + [_U] + _WORDS),
    "cindrolf_rearrange": (_U, _WORDS + _TEXT),
    "cindrolf_restore": (_U, _TEXT + _WORDS),
    "cindrolf_sentence": (_SentenceBytes, [_U, _U, _U] + _TEXT),
    "cindrolf_read_sentence": (_SentenceSaid, _TEXT),
}

_H = c_void_p

#: All functions of libcindrolf_store: what each gives, and what it takes.
STORE_FUNCTIONS = {
    "cindrolf_store_version": (_U, []),
    "cindrolf_store_status_text": (c_char_p, [c_int]),
    "cindrolf_store_open": (c_int, [c_char_p, POINTER(c_void_p)] + _TEXT),
    "cindrolf_store_open_read_only": (c_int, [c_char_p, POINTER(c_void_p)] + _TEXT),
    "cindrolf_store_create": (c_int, [c_char_p, _U, c_size_t, POINTER(c_void_p)] + _TEXT),
    "cindrolf_store_close": (c_int, [_H] + _TEXT),
    "cindrolf_store_message": (c_int, [_H] + _TEXT),
    "cindrolf_store_unknown_request": (c_int, [_H, _OUT]),
    "cindrolf_store_set_patience": (c_int, [_H, _U]),
    "cindrolf_store_set_process_name": (c_int, [_H, c_char_p]),
    "cindrolf_store_keep_witness": (c_int, [_H, c_char_p]),
    "cindrolf_store_end_waiting": (None, []),
    "cindrolf_store_take": (c_int, [_H, _U, _U, _U, _OUT]),
    "cindrolf_store_write_scores": (c_int, [_H, _U] + _SCORES + [_OUT]),
    "cindrolf_store_take_all": (c_int, [_H, POINTER(Asked), c_size_t] + _WORDS),
    "cindrolf_store_run_plan": (c_int, [_H] + _WORDS + [_U, _OUT]),
    "cindrolf_store_set_mark": (c_int, [_H, _U, _OUT]),
    "cindrolf_store_drop_mark": (c_int, [_H, _U, _OUT]),
    "cindrolf_store_grant": (c_int, [_H, _U, _U, _OUT]),
    "cindrolf_store_revoke": (c_int, [_H, _U, _U, _OUT]),
    "cindrolf_store_set_rights": (c_int, [_H] + _WORDS + [_OUT]),
    "cindrolf_store_snapshot": (c_int, [_H] + _LOG + _WORDS + _WORDS + [POINTER(Taken)]),
    "cindrolf_store_changed": (c_int, [_H, _U, _OUT]),
    "cindrolf_store_settle": (c_int, [_H, _U, _OUT, _OUT]),
    "cindrolf_store_last_row": (c_int, [_H] + _TEXT),
    "cindrolf_store_has_row": (c_int, [_H, c_char_p]),
    "cindrolf_store_check": (c_int, [_H, _OUT, _OUT]),
    "cindrolf_store_checkpoint": (c_int, [_H, _OUT]),
    "cindrolf_store_copy": (c_int, [_H, c_char_p]),
}


def _declare(library: ctypes.CDLL, functions: Any) -> None:
    for name, (gives, takes) in functions.items():
        function = getattr(library, name)
        function.restype, function.argtypes = gives, takes


log, store = _load()
_declare(log, LOG_FUNCTIONS)
_declare(store, STORE_FUNCTIONS)
for _library, _has, _wants in (
    (log, log.cindrolf_version(), VERSION),
    (store, store.cindrolf_store_version(), STORE_VERSION),
):
    if _has != _wants:
        raise ImportError(f"{_library._name} has interface {_has}, and this package is for {_wants}")
