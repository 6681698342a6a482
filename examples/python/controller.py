"""Writes reads to a shared log with the steps that the adviser names: controller.py ADDRESS CLIENT VALUE.."""

import sys

import cindrolf

address, client, *values = sys.argv[1:]
with cindrolf.open(address) as log:
    while values:
        step = log.advise(int(client))
        if step is None:
            log.changed()  # another client is named: wait until something happens
            continue
        try:
            answer = log.take(step, int(client), int(values[0]))
        except cindrolf.Refused as refused:
            sys.exit(f"{refused}")
        if answer.stored:
            print(f"{values.pop(0)} is {answer}")
