#!/usr/bin/env python3
"""Shows that an input that is refused at its end is scanned as fast as one that is not: refused.py.

It needs the program testbench as the gate builds it.
"""

import random

from common import Table, answer_help, measure_ours, milliseconds, print_table, ratio
from texts import TIMES, dense, json_text, lines, realistic, short_entries

SIZE = 1_100_000
TURNS = 5
COLUMNS = ["Text", "Bytes", "Tokens", "Time, ms", "With one byte FF after it, ms", "Times as long"]
NOTE = f"""Only ours. The text is scanned call by call as it is, and with one byte FF after it, which no text can have: then the last
answer is the reader's fault. The two take turns, {TURNS} times, and each time is the best of all."""


def inputs():
    """The name of a text and the text. Nothing is told after the fault, so none of them ends with many tokens at one place."""
    yield "realistic, 1.1 MB", realistic(SIZE, 7)
    yield "dense, 1.1 MB", dense(SIZE, 7)
    yield "JSON, 1.1 MB", json_text(SIZE)
    yield "90,000 short plain scalars, each an entry", short_entries(90_000)
    yield "literal, lines of 78", "- |\n  " + lines(random.Random(7), SIZE, 78, "\n  ") + "\n"
    yield f"{TIMES:,} times `[`", "[" * TIMES


def row(name, data):
    whole, refused = [], []
    for _ in range(TURNS):
        whole.append(measure_ours(data, "scan"))
        refused.append(measure_ours(data + b"\xff", "scan"))
    once, again = (min(found.best for found in side) for side in (whole, refused))
    return [name, str(len(data)), str(whole[0].count), milliseconds(once), milliseconds(again), ratio(again / once)]


def rows(_):
    for name, text in inputs():
        yield row(name, text.encode())


REFUSED = Table("Refused inputs", NOTE, COLUMNS, 3, rows)

if __name__ == "__main__":
    answer_help()
    print_table(REFUSED)
