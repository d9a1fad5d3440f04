#!/usr/bin/env python3
"""Scans the inputs of tests/vectors by calls, one for each token: calls.py PROGRAM.

The program `scan` gives all tokens to a sink by one call of the library. Here each of the 20,093 inputs for `scan` in rows.txt
and scan.txt.gz is scanned by calls, past its end, and with a peek before each scan. The calls are made one by one by the program
`testbench`, which is beside the given one, with the row's key limit; its peeks show the whole token. The program's own `calls`
makes them by one list, if the key limit is the usual one. All answers are those that follow from the expected lines of the row.
"""

import os
import subprocess
import sys
from concurrent.futures import ThreadPoolExecutor

sys.path.insert(0, os.path.join(os.path.dirname(os.path.abspath(__file__)), "lib"))
sys.dont_write_bytecode = True
from calling import answers_of
from vectors import vectors
from worked import Session

USUAL_LIMIT = 1024
PAST_THE_END = 2  # so many tokens more are asked for


def scan_rows():
    """The place of each row for `scan`, its setting, its key limit, its input and its lines."""
    folder = os.path.join(os.path.dirname(os.path.abspath(__file__)), "vectors")
    for place, words, data, lines in vectors(folder):
        if words[0] == "scan":
            yield place, words[1], int(words[2]) if len(words) > 2 else USUAL_LIMIT, data, lines


def wanted(lines, word, is_whole):
    """The answers to calls, by the lines of a scan. A peek shows the whole token, or its kind and its marks."""
    session, answers = Session(lines), []
    for letter in word:
        answers.append(session.call(letter))
        if session.peeked and is_whole:
            answers[-1] = "PEEK " + session.tokens[session.taken]
    return answers


def each_wrong(testbench, rows, part):
    """The places of the rows whose answers differ if the calls are made one by one: the part for each line, in turn."""
    words = [part * (len(lines) + PAST_THE_END) for *_, lines in rows]
    asked = [(setting, limit, word, data) for (_, setting, limit, data, _), word in zip(rows, words)]
    found = answers_of(testbench, asked)
    expected = [wanted(lines, word, True) for (*_, lines), word in zip(rows, words)]
    differ = [f"{row[0]} by testbench" for row, answers, want in zip(rows, found, expected) if answers != want]
    return differ + [f"{len(found)} lists answered, {len(rows)} asked"] * (len(found) != len(rows))


def list_wrong(program, row):
    """The place of a row whose answers differ if a peek before each scan is made by one list of the program, if they do."""
    place, setting, _, data, lines = row
    word = "ps" * (len(lines) + PAST_THE_END)
    done = subprocess.run([program, "calls", setting, word], input=data, capture_output=True, timeout=60)
    answers, status = wanted(lines, word, False), int(lines[-1].startswith("FAULT"))
    is_right = (done.stdout.decode("ascii").splitlines(), done.returncode, done.stderr) == (answers, status, b"")
    return None if is_right else f"{place} by calls {setting}"


def main(program):
    testbench = os.path.join(os.path.dirname(program), "..", "..", "testbench", "out", "testbench")
    rows = list(scan_rows())
    usual = [row for row in rows if row[2] == USUAL_LIMIT]
    wrong = each_wrong(testbench, rows, "s") + each_wrong(testbench, rows, "ps")
    with ThreadPoolExecutor(max_workers=os.cpu_count()) as pool:
        wrong += filter(None, pool.map(lambda row: list_wrong(program, row), usual))
    for place in wrong[:20]:
        print(place)
    print(f"calls: {len(rows)} inputs, {len(rows) - len(usual)} with a key limit of their own, {len(wrong)} differ")
    return 1 if wrong or not usual or len(usual) == len(rows) else 0


if __name__ == "__main__":
    from lib.usage import given_program

    sys.exit(main(given_program()))
