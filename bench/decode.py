#!/usr/bin/env python3
"""Measures decoding alone, beside a copy of the same bytes, on one core, best of nine: decode.py.

It needs the program testbench as the gate builds it, a C compiler and libyaml's header (the copy is made by the program
that also scans with libyaml). Accepted UTF-8 is checked and borrowed, so nothing is written; UTF-16 makes a new text.
"""

import sys

from common import Table, answer_help, measure_libyaml, measure_ours, milliseconds, print_table
from texts import decoded

COLUMNS = ["Text", "Bytes", "Decoding, ms", "GB/s", "A copy, ms", "GB/s of a copy"]
NOTE = """Decoding alone, best of nine, in bytes of the input. UTF-8 is checked and borrowed; of UTF-16 a new text in UTF-8
is made, in memory that is asked for anew each time. The copy is by `memcpy` into memory that was used before."""


def rows(folder):
    for name, text, data in decoded():
        ours = measure_ours(data, "decode")
        if ours.count != len(text.encode()):
            print("testbench does not measure decoding", file=sys.stderr)
            return
        copy = measure_libyaml(folder, data).copy
        speeds = [f"{len(data) / time:.2f}" for time in (ours.best, copy)]
        yield [name, str(len(data)), milliseconds(ours.best), speeds[0], milliseconds(copy), speeds[1]]


DECODING = Table("Decoding", NOTE, COLUMNS, 2, rows)

if __name__ == "__main__":
    answer_help()
    print_table(DECODING)
