"""Runs a session through a log of this package, and prints it as the session program and the program of totals do."""

import re

from cindrolf import Refused, Step, client_of, value_of

LETTERS = dict(zip(b"NBAFLKCPWO", Step))
INPUT_LIMIT = 16_384
# A number of more digits has no 64 bits.
NUMBER = rb"(0|[1-9][0-9]{0,19})"
LINE = re.compile(rb"([NBAFLKCPO]) " + NUMBER + rb"|(W) " + NUMBER + rb" " + NUMBER)


def read(given):
    """The client count and the lines, none for one that lacks its end; or all that is printed."""
    if len(given) > INPUT_LIMIT:
        return "too long\n"
    *lines, rest = given.split(b"\n")
    start = re.fullmatch(NUMBER, lines[0]) if lines else None
    if start is None or not 1 <= int(start.group()) <= 16:
        return "bad start\n"
    return int(start.group()), lines[1:] + ([None] if rest else [])


def step(line):
    """The step, the client and the value in a line, if it is good."""
    found = None if line is None else LINE.fullmatch(line)
    if found is None:
        return None
    letter, client, write, writer, value = found.groups()
    taken = (LETTERS[(letter or write)[0]], int(client or writer), int(value or 0))
    return taken if taken[1] <= 255 and taken[2] < 2**64 else None


def transcript(given, fresh):
    """What the session program prints, and then what the program of totals prints, by a log that `fresh` makes."""
    session = read(given)
    if isinstance(session, str):
        return session, session
    clients, lines = session
    with fresh(clients) as log:
        text = ""
        for place, line in enumerate(lines, 1):
            taken = step(line)
            text += f"{place} {'bad line' if taken is None else reply(log, *taken)}\n"
        words = log.chain()
        text += " ".join(["chain", *(f"{client_of(word)}:{value_of(word)}" for word in words)]) + "\n"
        return text, totals(log)


def reply(log, step, client, value):
    try:
        return str(log.take(step, client, value))
    except Refused as refused:
        return f"ref {refused.number}"


def totals(log):
    text = ""
    for ledger, entries, total in log.ledgers():
        text += f"ledger {ledger} entries {entries} sum {total // 10**12}.{total % 10**12:012}\n"
    total = log.total()
    return f"{text}total {total}\nrounded {total.rounded // 1000}.{total.rounded % 1000:03}\n"
