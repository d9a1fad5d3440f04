#!/usr/bin/env python3
"""Measures uses/many on 20,000 small files and on longer ones, with one worker, two, four: many.py [TURNS].

It needs ffi/build and dask.distributed in /usr/bin/python3 (Debian: python3-distributed). The files are in a new folder, read
once before. Each turn runs check.py with each number of workers; the best of five turns counts, by the time that check.py tells,
which begins when the workers are there. Of that best turn it tells the time of the whole command, and how many processors other
programs used meanwhile.
"""

import collections
import datetime
import os
import re
import resource
import subprocess
import sys
import tempfile
import time

from c import machine
from common import answer_help, line
from realistic import realistic

HERE = os.path.dirname(os.path.abspath(__file__))
CHECK = os.path.join(HERE, "..", "uses", "many", "check.py")
PYTHON = "/usr/bin/python3"
FILES = 20_000
WORKERS = [count for count in (1, 2, 4, 8, 16) if count <= os.cpu_count()]
TICKS = os.sysconf("SC_CLK_TCK")
# The time that check.py tells, that of the command, and how many processors others used.
Turn = collections.namedtuple("Turn", "scan whole others")


def write_files(folder, blocks_each):
    """Writes files that are blocks of a realistic text, and a list of them. Returns the list and how many bytes they have."""
    blocks = re.split(r"(?m)^(?=\w)", realistic(10_000_000, 7))[1:]
    names, size = [], 0
    for number in range(FILES):
        at = number * blocks_each
        text = "".join(blocks[(at + one) % len(blocks)] for one in range(blocks_each))
        names.append(os.path.join(folder, f"{number}.yaml"))
        size += len(text)
        with open(names[-1], "w", encoding="ascii") as file:
            file.write(text)
    with open(os.path.join(folder, "list"), "w", encoding="utf-8") as file:
        file.writelines(name + "\n" for name in names)
    return file.name, size


def used_by_all():
    """How many seconds all processors together were at work."""
    with open("/proc/stat", encoding="ascii") as lines:
        user, nice, system, _, _, irq, softirq = map(int, lines.readline().split()[1:8])
    return (user + nice + system + irq + softirq) / TICKS


def used_by_children():
    used = resource.getrusage(resource.RUSAGE_CHILDREN)
    return used.ru_utime + used.ru_stime


def turn(listing, workers):
    start, all_before, own_before = time.monotonic(), used_by_all(), used_by_children()
    words = [PYTHON, CHECK, "--workers", str(workers), listing]
    done = subprocess.run(words, stdout=subprocess.DEVNULL, stderr=subprocess.PIPE, check=True, text=True)
    whole = time.monotonic() - start
    others = used_by_all() - all_before - (used_by_children() - own_before)
    return Turn(float(re.search(r"([\d.]+) s on", done.stderr)[1]), whole, max(0, others / whole))


def measure(folder, blocks_each, turns):
    listing, size = write_files(folder, blocks_each)
    found = {workers: [] for workers in WORKERS}
    for _ in range(turns):
        for workers in WORKERS:
            found[workers].append(turn(listing, workers))
    best = {workers: min(found[workers]) for workers in WORKERS}
    for workers, one in best.items():
        cells = [f"{FILES:,} files, {size / 1e6:.0f} MB", str(workers), f"{one.scan:.2f}", f"{size / 1e6 / one.scan:.0f}"]
        yield [*cells, f"{best[1].scan / one.scan:.2f}", f"{one.whole:.1f}", f"{one.others:.1f}"]


def main():
    turns = int(sys.argv[1]) if len(sys.argv) > 1 else 5
    print(f"{datetime.date.today()}; {machine()}; best of {turns} turns\n")
    columns = ["Files", "Workers", "Seconds", "MB/s", "Times as fast as one", "The whole command, seconds", "Processors that others used"]
    print(line(columns) + "\n" + "|---" * len(columns) + "|")
    for blocks_each in (1, 10):
        with tempfile.TemporaryDirectory() as folder:
            for cells in measure(folder, blocks_each, turns):
                print(line(cells), flush=True)


if __name__ == "__main__":
    answer_help()
    main()
