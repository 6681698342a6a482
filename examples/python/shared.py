"""A controller that shares a log with others. It reads one value a line and writes it with the steps that the adviser names; it
hands over to the next client after 16 of them; and on SIGINT or SIGTERM hands over, closes the log and ends."""

import os
import signal
import sys

import cindrolf
from cindrolf import Step

ending = False


def end(*_):
    """From now on there are no more reads, and no call waits for long."""
    global ending
    ending = True
    cindrolf.end_waiting()
    os.dup2(os.open(os.devnull, os.O_RDONLY), sys.stdin.fileno())


def take(log, step, client, value=0):
    """Takes a step. If another client was faster it is refused, and the adviser knows what to do next; these four refusals are final."""
    try:
        return log.take(step, client, value)
    except cindrolf.Refused as refused:
        print(f"refused {value} at row {log.last_row().split(':')[0]}: {refused.sentence}", flush=True)
        if refused.number in (10, 11, 13, 24):
            raise


def write(log, client, value):
    """Takes steps until the read is stored. While another client is named, it waits for a change."""
    while not ending:
        step = log.advise(client)
        if step is None:
            log.changed(1)
        elif (answer := take(log, step, client, value)) and answer.stored:
            print(f"stored {value} as {answer}", flush=True)
            return


def hand_over(log, client):
    """The named client names the next one. A client that leads and is not named abdicates."""
    now = log.snapshot()
    if now.advise(client) not in (None, Step.ABDICATE) and now.clients > 1:
        take(log, Step.NAME, (client + 1) % now.clients)
    if log.advise(client) == Step.ABDICATE:
        take(log, Step.ABDICATE, client)


def main(address, client):
    signal.signal(signal.SIGINT, end)
    signal.signal(signal.SIGTERM, end)
    with cindrolf.open(address) as log:
        for written, line in enumerate(sys.stdin, 1):
            if ending:
                break
            write(log, client, int(line))
            if written % 16 == 0:
                hand_over(log, client)
        hand_over(log, client)


if __name__ == "__main__":
    try:
        main(sys.argv[1], int(sys.argv[2]))
    except cindrolf.Error as error:
        # After cindrolf.Unknown, read the log before you send the same read again.
        sys.exit(f"controller: {error}")
