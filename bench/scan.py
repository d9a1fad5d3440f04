#!/usr/bin/env python3
"""Compares the speed of the proved scanner with libyaml's, on the same bytes and one core, by turns, best of all.

scan.py needs the program testbench as the gate builds it (crates/testbench/out/testbench), a C compiler and libyaml's header
(Debian: libyaml-dev). Each scans a text from memory to its end or its fault and throws the tokens away; nothing is listed.
scan.py FILE.. measures those files instead of its own texts.
"""

import os
import sys
import time

from common import Table, answer_help, measure_libyaml, measure_ours, milliseconds, print_table, ratio
from texts import scanned

# They take turns so often at least, and for so many seconds.
TURNS = 5
SECONDS = 5
# libyaml scans so often at each turn. Ours scans nine times.
SCANS = 3
# There is one turn if libyaml takes as many nanoseconds as this.
LONG = 1e9
# A scan by libyaml is stopped after so many seconds.
LIMIT = 60
COLUMNS = ["Text", "Bytes", "Tokens", "Ours, ms", "libyaml, ms", "Times as fast"]
NOTE = f"""All tokens are scanned from memory to the end or the fault, and thrown away. The two take turns for {SECONDS} seconds, and {TURNS}
times at least, so that a machine whose speed changes changes it for both; each time is the best of all scans. libyaml has
one turn if it takes a second, begins no scan after 20 seconds of a turn, and is stopped after {LIMIT} seconds: "over" is
written before such a time."""


def turns(folder, data):
    """The best scan of ours and the best of libyaml's."""
    ours, theirs, start = [], [], time.monotonic()
    while len(ours) < TURNS or time.monotonic() < start + SECONDS:
        ours.append(measure_ours(data, "scan"))
        theirs.append(measure_libyaml(folder, data, str(SCANS), str(LIMIT)))
        if theirs[-1].best > LONG:
            break
    return min(ours, key=lambda found: found.best), min(theirs, key=lambda found: found.best)


def row(folder, name, data):
    ours, theirs = turns(folder, data)
    if theirs.ended and theirs.count != ours.count:
        print(f"{name}: {ours.count} tokens are ours, {theirs.count} are libyaml's", file=sys.stderr)
    over = "" if theirs.ended else "over "
    times = ratio(theirs.best / ours.best)
    return [name, str(len(data)), str(ours.count), milliseconds(ours.best), over + milliseconds(theirs.best), over + times]


def rows(folder):
    for name, text in scanned():
        yield row(folder, name, text.encode())


def rows_of_files(folder):
    for path in sys.argv[1:]:
        with open(path, "rb") as file:
            yield row(folder, os.path.basename(path), file.read())


SCANNING = Table("Scanning", NOTE, COLUMNS, 3, rows)

if __name__ == "__main__":
    answer_help()
    print_table(SCANNING._replace(rows=rows_of_files) if sys.argv[1:] else SCANNING)
