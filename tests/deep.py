#!/usr/bin/env python3
"""Scans deep and long inputs with the program: deep.py PROGRAM.

Depth and levels have no limit but the input's length. An input has 100,000 openers, closers, nested sequences, keys of keys,
mappings as keys, blank lines and so on, and gives the lines that are expected (ways.py takes its tokens in all ways). The time
of a scan grows with the input: twice the input takes at most three times as long. Where the input outgrows a cache of the
machine, one doubling may take longer; so it is wrong only if three doublings, one after the other, take longer. The time is
user time, the best of three runs or more, so that a busy machine makes no difference. The program `testbench`, which is beside
the given one, takes the times.
"""

import math
import os
import resource
import subprocess
import sys

sys.path.insert(0, os.path.join(os.path.dirname(os.path.abspath(__file__)), "lib"))
sys.dont_write_bytecode = True
from deep_texts import DEEP_TEXTS, mark, one, run_of

MANY = 100_000
# the most that scanning twice the input may take, in times of scanning the input
GROWTH = 3
# A time in seconds that the ticks of the system's clock do not blur. A shorter one is taken as this.
LEAST = 0.05
# pairs of times that are always taken, and how many at most are taken if the growth is over
FEW_PAIRS = 3
MOST_PAIRS = 12
# how often the input is doubled if the growth is over
DOUBLINGS = 3
# in seconds; a scan that is linear needs much less
TIMEOUT = 120


def sequences(count):
    """The tokens of so many `- ` on one line."""
    end = mark(2 * count, 1)
    starts = [line for k in range(0, 2 * count, 2)
              for line in (one("BLOCK-SEQUENCE-START", mark(k), mark(k)), one("BLOCK-ENTRY", mark(k), mark(k + 1)))]
    return starts + [one("BLOCK-END", end, end)] * count + [one("STREAM-END", end, end)]


# The lines of some texts after the first, for the count MANY.
LINES = {
    "openers": run_of("FLOW-SEQUENCE-START", MANY),
    "closers": run_of("FLOW-SEQUENCE-END", MANY),
    "sequences": sequences(MANY // 2),
    "more sequences": sequences(MANY),
}


def seconds_of(testbench, text, limit):
    """How long the processor was busy for nine scans of the text; the waiting for a busy machine is not in it."""
    before = resource.getrusage(resource.RUSAGE_CHILDREN).ru_utime
    words = [testbench, "measure", "scan", str(limit)]
    subprocess.run(words, input=text.encode("ascii"), capture_output=True, check=True, timeout=TIMEOUT)
    return resource.getrusage(resource.RUSAGE_CHILDREN).ru_utime - before


def count_to_measure(testbench, deep):
    """A count whose input takes long enough to be measured, or a large one if none does."""
    count = MANY
    while count < 16 * MANY and seconds_of(testbench, deep.text(count), deep.limit) < LEAST:
        count *= 2
    return count


def doubling_problem(testbench, deep, count):
    """Compares the best time of an input with the best time of one twice as long, each the best of several."""
    once, twice = deep.text(count), deep.text(2 * count)
    best_once = best_twice = math.inf
    for pair in range(1, MOST_PAIRS + 1):
        best_once = min(best_once, max(seconds_of(testbench, once, deep.limit), LEAST))
        best_twice = min(best_twice, seconds_of(testbench, twice, deep.limit))
        if pair >= FEW_PAIRS and best_twice <= GROWTH * best_once:
            return None
    return f"{2 * count} took {best_twice:.2f} seconds, {count} took {best_once:.2f}"


def growth_problem(testbench, deep):
    """What is wrong with the growth of an input's time: each of several doublings takes too long."""
    count = count_to_measure(testbench, deep)
    problems = []
    for doubling in range(DOUBLINGS):
        found = doubling_problem(testbench, deep, count << doubling)
        if found is None:
            return None
        problems.append(found)
    return "; ".join(problems)


def listing_problem(program, text, wanted):
    done = subprocess.run([program, "scan", "any"], input=text.encode("ascii"), capture_output=True, timeout=TIMEOUT)
    lines = done.stdout.decode("ascii").splitlines()
    if done.stderr or done.returncode not in (0, 1):
        return f"status {done.returncode}, {done.stderr!r}"
    if lines[:1] != ["STREAM-START 0:0:0 0:0:0 UTF8"]:
        return f"begins with {lines[:1]}"
    if wanted is not None:
        return None if lines[1:] == wanted and done.returncode == 0 else "the other lines are not as expected"
    ends = lines[-1].startswith("FAULT scanner " if done.returncode else "STREAM-END ")
    return None if ends else f"ends with {lines[-1]}"


def problem(program, testbench, deep):
    try:
        listing = listing_problem(program, deep.text(MANY), LINES.get(deep.name))
        return listing or growth_problem(testbench, deep)
    except subprocess.TimeoutExpired:
        return f"took more than {TIMEOUT} seconds"


def main(program):
    testbench = os.path.join(os.path.dirname(program), "..", "..", "testbench", "out", "testbench")
    wrong = 0
    for deep in DEEP_TEXTS:
        found = problem(program, testbench, deep)
        if found:
            print(f"{deep.name}: {found}")
            wrong += 1
    print(f"deep: {len(DEEP_TEXTS)} texts scanned, {wrong} wrong")
    return 1 if wrong else 0


if __name__ == "__main__":
    from lib.usage import given_program

    sys.exit(main(given_program()))
