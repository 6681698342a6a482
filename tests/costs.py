"""What a call costs from Python: costs.py FILE. Prints the lines of tests/costs.c."""

import sys
import time

import cindrolf
from cindrolf import Step

ROUNDS = 50


def leads(log):
    while (step := log.advise(0)) is not Step.WRITE:
        log.take(step, 0)
    return log


def refused(log):
    try:
        log.become(1)
    except cindrolf.Refused:
        return
    sys.exit("costs: a step was not refused")


def measure(name, before, call, count):
    best = float("inf")
    for _ in range(ROUNDS):
        log = before()
        since = time.perf_counter_ns()
        for _ in range(count):
            call(log)
        best = min(best, (time.perf_counter_ns() - since) / count)
    print(f"{name}:{best:.0f}")
    return log


def main(file):
    log = measure("write, in memory", lambda: leads(cindrolf.Log(2)), lambda log: log.write(0, 201), 500)
    measure("advice, in memory", lambda: log, lambda log: log.advise(0), 500)
    with cindrolf.create(file, 2) as store:
        leads(store)
        measure("refused step of a store", lambda: store, refused, 50)
        measure("snapshot of a store", lambda: store, lambda log: log.snapshot(), 50)
        measure("write of a store", lambda: store, lambda log: log.write(0, 201), 50)


main(sys.argv[1])
