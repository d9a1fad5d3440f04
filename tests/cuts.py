#!/usr/bin/env python3
"""Cuts the input of every worked row at every byte: cuts.py PROGRAM.

Each cut ends with the stream end or with one fault, and the status is 1 if there is a fault, else 0. A list of
calls has one line for each call. (For inputs of up to 200 bytes vectors/scan.txt.gz has all the lines of each cut.)
The rows decode, scan and make calls, or say how many steps are queued. The deep rows, of 100,000
bytes, are cut at some bytes. Of 1,026 `[`, and of six with a key limit of 4, the program testbench scans and peeks once after
each cut: all of them are queued, and the stream end, but one step more than the key limit at most.
"""

import os
import subprocess
import sys
from concurrent.futures import ThreadPoolExecutor

sys.path.insert(0, os.path.join(os.path.dirname(os.path.abspath(__file__)), "lib"))
sys.dont_write_bytecode = True
from worked import DEEP_ROWS, QUEUES, is_ended, queued, rows

DEEP_STEP = 9_973  # bytes between two cuts of a deep row


def is_right(words, done):
    lines = done.stdout.decode("ascii").splitlines()
    faults = [number for number, line in enumerate(lines) if line.startswith("FAULT ")]
    if done.stderr or len(faults) > 1 or done.returncode != len(faults):
        return False
    if words[0] == "calls":
        return len(lines) == len(words[2])
    if words[0] == "decode":
        return len(lines) == 1 and lines[0].startswith(("TEXT ", "FAULT reader "))
    stream_ends = [number for number, line in enumerate(lines) if is_ended(line)]
    return [len(lines) - 1] == (faults or stream_ends)


def cuts():
    """The words of a command, and the front of a row's input."""
    limited = [(["scan", "any", str(limit)], data) for data, limit, _, _ in QUEUES]
    for words, data in [(words, data) for words, data, _ in rows()] + limited:
        for end in range(len(data) + 1):
            yield words, data[:end]
    for data in DEEP_ROWS:
        for end in range(0, len(data) + 1, DEEP_STEP):
            yield ["scan", "any"], data[:end]


def is_queue_right(testbench, cut):
    """Whether as many steps are queued after a peek of the first `[` as there may be, of these and the stream end."""
    data, limit = cut
    return queued(testbench, data, limit, "sp") == [0, min(len(data), limit) + 1]


def main(program):
    testbench = os.path.join(os.path.dirname(program), "..", "..", "testbench", "out", "testbench")
    every = list(cuts())
    openers = [(data[:end], limit) for data, limit, word, _ in QUEUES if word == "sp" for end in range(len(data) + 1)]

    def is_cut_right(cut):
        words, data = cut
        return is_right(words, subprocess.run([program, *words], input=data, capture_output=True, timeout=60))

    with ThreadPoolExecutor(max_workers=os.cpu_count()) as pool:
        wrong = [cut for cut, found in zip(every, pool.map(is_cut_right, every)) if not found]
        queues = list(pool.map(lambda cut: is_queue_right(testbench, cut), openers))
    for words, data in wrong[:20]:
        print(f"{' '.join(words)}: {data[:200]!r}")
    print(f"cuts: {len(every)} tried, {len(wrong)} wrong; {len(queues)} queues, {queues.count(False)} wrong")
    return 1 if wrong or not every or not all(queues) else 0


if __name__ == "__main__":
    from lib.usage import given_program

    sys.exit(main(given_program()))
