#!/usr/bin/env python3
"""Measures everything twice and writes the tables to results.md: all.py [FILE], FILE in place of results.md.

It needs what the other scripts need: the programs as the gate builds them, a C compiler, libyaml's header and valgrind.
All is measured once and then all again, so that the two figures of a cell are minutes apart.
"""

import datetime
import os
import platform
import shutil
import subprocess
import sys
import tempfile

from common import HERE, TESTBENCH, YAMLTOK, answer_help, build_libyaml, line
from decode import DECODING
from growth import GROWTH
from instructions import INSTRUCTIONS
from listing import LISTING
from refused import REFUSED
from scan import SCANNING

TABLES = [SCANNING, GROWTH, REFUSED, DECODING, LISTING]


def first_value(path, name):
    """The value of the first line of a system file that has this name before a colon."""
    with open(path, encoding="ascii") as lines:
        return next((text.split(":", 1)[1].strip() for text in lines if text.startswith(name)), "unknown")


def said(*words):
    return subprocess.run(words, capture_output=True, check=True, text=True).stdout.splitlines()[0]


def load():
    return ", ".join(f"{value:.1f}" for value in os.getloadavg())


def machine(folder):
    memory = int(first_value("/proc/meminfo", "MemTotal").split()[0]) * 1024 / 1e9
    yield f"- Processor: {first_value('/proc/cpuinfo', 'model name')}, {os.cpu_count()} of them seen by the system"
    yield f"- Memory: {memory:.0f} GB"
    yield f"- Virtual: {'yes' if 'hypervisor' in first_value('/proc/cpuinfo', 'flags').split() else 'no'}"
    yield f"- System: {platform.system()} {platform.release()}"
    yield f"- libyaml {said(build_libyaml(folder))}, measured by a program that was compiled by {said('cc', '--version')}"


def times():
    return datetime.datetime.now(datetime.timezone.utc).strftime("%Y-%m-%d %H:%M UTC")


def run(tables, folder):
    measured = []
    for table in tables:
        print(f"{times()}: {table.title}", file=sys.stderr)
        measured.append(list(table.rows(folder)))
    return measured


def joined(table, runs):
    """The rows of a table, with the figures of all runs in a cell unless they are the same in every run by their nature."""
    for rows in zip(*runs):
        first = rows[0]
        assert all(row[: table.fixed] == first[: table.fixed] for row in rows)
        yield first[: table.fixed] + [", ".join(cells) for cells in list(zip(*rows))[table.fixed :]]


def lines_of(table, runs):
    yield from ["", f"## {table.title}", "", table.note, ""]
    yield from [line(table.columns), "|---" * len(table.columns) + "|"]
    yield from (line(cells) for cells in joined(table, runs))


def measured_lines(folder):
    head = ["# What was measured", "", "Written by `bench/all.py`. A cell with two figures has those of run 1 and run 2.", ""]
    head += machine(folder)
    runs = []
    for number in 1, 2:
        start = f"- Run {number}: from {times()}, load {load()} before it"
        runs.append(run(TABLES, folder))
        head.append(f"{start}; to {times()}, load {load()} after it")
    tables = [text for n, table in enumerate(TABLES) for text in lines_of(table, [tables[n] for tables in runs])]
    return head + tables + list(lines_of(INSTRUCTIONS, run([INSTRUCTIONS], folder)))


def main():
    missing = [name for name in (TESTBENCH, YAMLTOK, "cc", "taskset", "valgrind") if not shutil.which(name)]
    if missing:
        raise SystemExit(f"not found: {', '.join(missing)}")
    path = sys.argv[1] if len(sys.argv) > 1 else os.path.join(HERE, "results.md")
    with tempfile.TemporaryDirectory() as folder:
        lines = measured_lines(folder)
    with open(path, "w", encoding="utf-8") as file:
        file.write("\n".join(lines) + "\n")


if __name__ == "__main__":
    answer_help()
    main()
