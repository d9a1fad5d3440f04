#!/usr/bin/env python3
"""Counts the instructions that a token takes, ours and libyaml's, by callgrind, on texts of 200 KB: instructions.py.

It needs the programs as the gate builds them, a C compiler, libyaml's header and valgrind. What is not scanning is taken
away: of ours, a run that reads only the first lexeme from a run that scans nine times; of libyaml, a run of one scan from
a run of two. A listing is counted whole, with the start of the program and the reading of its input.
"""

import re
import subprocess

from common import TESTBENCH, YAMLTOK, Table, answer_help, build_libyaml, measure_libyaml, measure_ours, print_table, ratio, write_file
from texts import dense, json_text, realistic

SIZE = 200_000
SCANS = 9
COLUMNS = ["Text", "Bytes", "Tokens", "By calls", "Through a sink", "Listing", "libyaml", "libyaml's in times of ours by calls"]
NOTE = "Instructions a token, counted by callgrind in one run; they do not depend on what else the machine does."


def instructions(words, data=b""):
    callgrind = ["valgrind", "--tool=callgrind", "--callgrind-out-file=/dev/null"]
    done = subprocess.run([*callgrind, *words], input=data, capture_output=True, check=True)
    return int(re.search(r"Collected : (\d+)", done.stderr.decode())[1])


def row(folder, name, data):
    tokens = measure_ours(data, "scan").count
    if measure_libyaml(folder, data, "1").count != tokens:
        raise SystemExit(f"{name}: libyaml has other tokens")
    libyaml, path = build_libyaml(folder), write_file(folder, data)
    start = instructions([TESTBENCH, "measure"], data)
    ours = [(instructions([TESTBENCH, "measure", word], data) - start) / SCANS for word in ("scan", "sink")]
    listing = instructions([YAMLTOK, "scan", "any"], data)
    theirs = instructions([libyaml, path, "2"]) - instructions([libyaml, path, "1"])
    figures = [count / tokens for count in (*ours, listing, theirs)]
    return [name, str(len(data)), str(tokens), *(f"{n:.0f}" for n in figures), ratio(figures[-1] / figures[0])]


def rows(folder):
    yield row(folder, "realistic, 200 KB", realistic(SIZE, 7).encode())
    yield row(folder, "dense, 200 KB", dense(SIZE, 7).encode())
    yield row(folder, "JSON, 200 KB", json_text(SIZE).encode())


INSTRUCTIONS = Table("Instructions a token", NOTE, COLUMNS, 8, rows)

if __name__ == "__main__":
    answer_help()
    print_table(INSTRUCTIONS)
