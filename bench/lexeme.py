#!/usr/bin/env python3
"""Compares the speed of the readers of lexemes with libyaml's scanner and a plain copy, on one core, best and median of nine.

lexeme.py needs the program testbench as the gate builds it (crates/testbench/out/testbench), a C compiler and libyaml's header
(Debian: libyaml-dev). Texts of about 1 MB are made anew each time, from a fixed seed.
"""

from common import Table, answer_help, measure_libyaml, measure_ours, milliseconds, print_table, ratio
from texts import scalars, short_entries

COLUMNS = ["Text", "Bytes", "Ours, best (median) in ms", "libyaml, best (median) in ms", "Times as fast", "A copy, ms"]


def texts():
    """The name of each text, the text, and whether all its lexemes are read or only the first."""
    for name, text in scalars():
        yield name, text, False
    # both read the entries of a sequence
    yield "100,000 short plain scalars", short_entries(), True


def both(measured):
    return f"{milliseconds(measured.best)} ({milliseconds(measured.median)})"


def rows(folder):
    for name, text, walks in texts():
        data = text.encode()
        ours = measure_ours(data, *(["walk"] if walks else []))
        theirs = measure_libyaml(folder, data)
        times = ratio(theirs.best / ours.best)
        yield [name, str(len(data)), both(ours), both(theirs), times, milliseconds(theirs.copy)]


if __name__ == "__main__":
    answer_help()
    print_table(Table("Lexemes", "", COLUMNS, 2, rows))
