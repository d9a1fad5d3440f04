#!/usr/bin/env python3
"""Measures listing the tokens of 10 MB to a file, beside scanning them, and the memory that it takes: listing.py.

It needs the programs yamltok and testbench as the gate builds them.
"""

import os
import subprocess
import sys

from common import HERE, PINNED, YAMLTOK, Table, answer_help, measure_ours, milliseconds, print_table, ratio, write_file
from texts import LARGE, dense, realistic

RUNS = 9
COLUMNS = [
    "Text",
    "Bytes",
    "Bytes of the listing",
    "`scan any`, ms",
    "Scanning alone, ms",
    "Times as long",
    "The system alone, ms",
    "Most memory, MB",
]
NOTE = """`yamltok scan any` reads a file and writes its listing to a file, from the start of the program to its end.
`testbench measure scan` scans the same bytes from memory and lists nothing. The system alone is what a small program in C
takes that reads the file, fills as much memory as the listing has, and writes that to a file. The three take turns, nine
times, and each time is the best of all. The memory is the largest resident size of `yamltok`, in millions of bytes, of
which the input is about 10."""


def build_moved(folder):
    """Compiles the program that reads and writes, and scans nothing."""
    program = os.path.join(folder, "moved")
    if not os.path.exists(program):
        subprocess.run(["cc", "-O2", "-o", program, os.path.join(HERE, "moved.c")], check=True)
    return program


def run_once(path, listing, *words):
    """The nanoseconds that a program took from the file to the listing, and its kilobytes."""
    child = [*PINNED, sys.executable, os.path.join(HERE, "child.py"), path, listing, *words]
    return [int(n) for n in subprocess.run(child, capture_output=True, check=True).stdout.split()]


def row(folder, name, data):
    path, listing, moved = write_file(folder, data), os.path.join(folder, "listing"), build_moved(folder)
    done, scans, systems = [], [], []
    for _ in range(RUNS):
        done.append(run_once(path, listing, YAMLTOK, "scan", "any"))
        size = os.path.getsize(listing)
        scans.append(measure_ours(data, "scan").best)
        systems.append(run_once(path, listing, moved, str(size))[0])
    best, scan = min(time for time, _ in done), min(scans)
    memory = max(kilobytes for _, kilobytes in done) * 1024
    figures = [milliseconds(best), milliseconds(scan), ratio(best / scan), milliseconds(min(systems))]
    return [name, str(len(data)), str(size), *figures, f"{memory / 1e6:.0f}"]


def rows(folder):
    yield row(folder, "realistic, 10 MB", realistic(LARGE, 7).encode())
    yield row(folder, "dense, 10 MB", dense(LARGE, 7).encode())


LISTING = Table("Listing", NOTE, COLUMNS, 3, rows)

if __name__ == "__main__":
    answer_help()
    print_table(LISTING)
