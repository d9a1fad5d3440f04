#!/usr/bin/env python3
"""Gives inputs in pieces: pieces.py PROGRAM, which runs its neighbour testbench.

`testbench pieces` gives an input to one parser by calls of `yaml_fed_scan_to`: a piece more once more bytes are wanted, and a
sink of a few tokens at each call. `testbench to` gives the whole input to one sink by `yaml_scan_to`. Both write the same tokens,
with the same marks and texts, and the same fault or none. The inputs are those of batches.txt.gz, with the encodings and the key
limits there, and the worked rows. Each is given byte by byte to a sink for one token, and in pieces of 2 to 100 bytes to sinks for
2 to 40.
"""

import gzip
import os
import subprocess
import sys
from concurrent.futures import ThreadPoolExecutor

HERE = os.path.dirname(os.path.abspath(__file__))
sys.path.insert(0, os.path.join(HERE, "lib"))
sys.dont_write_bytecode = True
from worked import rows

FILE = os.path.join(HERE, "batches.txt.gz")
USUAL_LIMIT = "1024"
# for how many tokens a sink has room, and how many bytes a piece has
WAYS = [(1, 1), (2, 3), (3, 2), (5, 7), (40, 13), (8, 100)]
MOST_SHOWN = 20
TIMEOUT = 60


def inputs():
    """The encoding, the key limit and the bytes of each input, once."""
    with gzip.open(FILE, "rt", encoding="ascii") as lines:
        for line in lines:
            words, data, _, _ = line.rstrip("\n").split("\t")
            yield tuple(words.split(" ")[1:3]) + (bytes.fromhex(data.strip("-")),)
    for words, data, _ in rows():
        yield words[1], USUAL_LIMIT, data


def lines_of(testbench, words, data):
    """What testbench writes, or what went wrong."""
    done = subprocess.run([testbench, *words], input=data, capture_output=True, timeout=TIMEOUT)
    return f"status {done.returncode}: {done.stderr!r}" if done.stderr or done.returncode else done.stdout


def problems_of(testbench, row):
    """The ways in which an input in pieces gives other lines than the whole."""
    encoding, limit, data = row
    wanted = lines_of(testbench, ["to", encoding, limit, "-", "-"], data)
    for tokens, size in WAYS:
        found = lines_of(testbench, ["pieces", encoding, limit, str(tokens), str(size)], data)
        if found != wanted:
            yield f"{encoding} {limit}, {tokens} tokens, pieces of {size}: {data!r}\n  {found!r}\n  not {wanted!r}"


def main(program):
    testbench = os.path.join(os.path.dirname(program), "..", "..", "testbench", "out", "testbench")
    every = sorted(set(inputs()))
    with ThreadPoolExecutor() as pool:
        problems = [problem for found in pool.map(lambda row: list(problems_of(testbench, row)), every) for problem in found]
    for problem in problems[:MOST_SHOWN]:
        print(problem)
    print(f"pieces: {len(every)} inputs in {len(WAYS)} ways, {len(problems)} wrong")
    return int(bool(problems))


if __name__ == "__main__":
    from lib.usage import given_program

    sys.exit(main(given_program()))
