#!/usr/bin/env python3
"""Compares how far a session has read after each call: paces.py PROGRAM, which runs its neighbour testbench.

A line of paces.txt.gz has three parts, separated by tabs: the encoding, the key limit and the calls; the input in
hexadecimal; and after each call how many steps have a token in the queue and the mark up to which the last good step
has read, joined by ` / `. After a fault only the mark is compared, and at most limit + 1 steps are queued. The file has 2,776
inputs, the worked rows with three lists of calls each, and inputs of scan.txt.gz. It was made from the same executable reading of
the rules as vectors/. The calls are scans, peeks and skips, one by one.
"""

import gzip
import os
import subprocess
import sys
from concurrent.futures import ThreadPoolExecutor

HERE = os.path.dirname(os.path.abspath(__file__))


def rows():
    with gzip.open(os.path.join(HERE, "paces.txt.gz"), "rt", encoding="ascii") as lines:
        for line in lines:
            words, data, wanted = line.rstrip("\n").split("\t")
            yield words.split(" "), bytes.fromhex(data.strip("-")), wanted.split(" / ")


def is_right(state, wanted, limit):
    _, _, queued, mark, _ = state.split(" ", 4)
    count, place = wanted.split(" ")
    return mark == place and (queued == count or count == "-" and int(queued) <= limit + 1)


def is_row_right(testbench, row):
    words, data, wanted = row
    done = subprocess.run([testbench, "each", *words], input=data, capture_output=True, timeout=60)
    states = done.stdout.decode("ascii").splitlines()[1::2]
    is_whole = len(states) == len(wanted) and not done.stderr and done.returncode == 0
    return is_whole and all(is_right(state, want, int(words[1])) for state, want in zip(states, wanted))


def main(program):
    testbench = os.path.join(os.path.dirname(program), "..", "..", "testbench", "out", "testbench")
    every = list(rows())
    with ThreadPoolExecutor(max_workers=os.cpu_count()) as pool:
        found = list(pool.map(lambda row: is_row_right(testbench, row), every))
    wrong = [row for row, right in zip(every, found) if not right]
    for words, data, _ in wrong[:10]:
        print(f"{words}, {data[:100]!r}")
    print(f"paces: {len(every)} compared, {len(wrong)} differ")
    return 1 if wrong or not every else 0


if __name__ == "__main__":
    from lib.usage import given_program

    sys.exit(main(given_program()))
