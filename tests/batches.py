#!/usr/bin/env python3
"""Compares which tokens each call gives a sink: batches.py PROGRAM, which runs its neighbour testbench.

A line of batches.txt.gz has four parts, separated by tabs. The first has the words of `testbench batches`: the encoding, the
key limit, and for how many tokens, and bytes of their texts, the sink has room at each call (`-` if there is no limit). The
second is the input in hexadecimal. The third has for each call of `yaml_scan_next_to`, one after the other, how many tokens the
sink was given, `r` if a token was returned, `f` if a fault was, or `-`, and the mark up to which the last good step has read;
calls are joined by ` / `. The fourth is a digest of all tokens and the fault.

The file has 9,935 rows, for 1,209 inputs in up to ten sizes of room: keys after the end of a block whose last thing is an
alias, an anchor, a tag or any other; flow collections with names, tags and aliases; JSON on one line and in lines; block
scalars, documents, directives, nested block ends, quoted keys, comments; faults of the scanner and of the reader; UTF-16; small
key limits; the inputs of growths.py, and the worked rows.

No rule says how many tokens a call gives. So the file was made with the program as it was at commit 0fb60f73, by
by_hand/batches.py, and a row that differs says that calls give more or fewer tokens than then, or read further. Besides, no
call gives the sink more than it has room for, or gives it tokens and returns one too, at most limit + 1 steps are queued, and
one `yaml_scan_to` gives a sink the same tokens and the same fault, whatever room it has.
"""

import gzip
import hashlib
import os
import subprocess
import sys
from concurrent.futures import ThreadPoolExecutor

HERE = os.path.dirname(os.path.abspath(__file__))
FILE = os.path.join(HERE, "batches.txt.gz")
TEXTS = {"SCALAR": 1, "ANCHOR": 1, "ALIAS": 1, "TAG": 2, "TAG_DIRECTIVE": 2}


def rows():
    with gzip.open(FILE, "rt", encoding="ascii") as lines:
        for line in lines:
            words, data, calls, digest = line.rstrip("\n").split("\t")
            yield words.split(" "), bytes.fromhex(data.strip("-")), calls, digest


def lines_of(testbench, words, data):
    """What testbench writes, or None if it does not end as it should."""
    done = subprocess.run([testbench, *words], input=data, capture_output=True, timeout=60)
    return None if done.stderr or done.returncode else done.stdout.decode("ascii").splitlines()


def calls_of(lines):
    """For each call the tokens that the sink was given, the token or fault that was returned or None, and the state."""
    calls, given, returned = [], [], None
    for line in lines:
        kind, rest = line.split(" ", 1)
        if kind == "GIVEN":
            given.append(rest)
        elif kind == "STATE":
            calls.append((given, returned, line))
            given, returned = [], None
        else:
            returned = rest if kind == "RETURNED" else line
    return calls


def shown(call):
    given, returned, state = call
    what = "-" if returned is None else "f" if returned.startswith("FAULT") else "r"
    return f"{len(given)} {what} {state.split(' ', 4)[3]}"


def digest_of(lines):
    """A digest of tokens and a fault. The empty tokens that come after the end are none."""
    kept = [line for line in lines if not line.startswith("TOKEN YAML_NO_TOKEN")]
    return hashlib.sha256("\n".join(kept).encode("ascii")).hexdigest()[:16]


def handed_out(calls):
    """The tokens that the sink was given and those that were returned, and the fault, in order."""
    return [line for given, returned, _ in calls for line in [*given, *([returned] if returned else [])]]


def texts_len(token):
    """How many bytes the texts of a token have."""
    _, name, _, _, *parts = token.split(" ")
    count = TEXTS.get(name.removeprefix("YAML_").removesuffix("_TOKEN"), 0)
    return sum(len(part) // 2 for part in parts[len(parts) - count :] if part != "-")


def is_within(words, calls):
    """Whether each call keeps to the room and gives or returns, and few steps are queued."""
    tokens, texts = (float("inf") if word == "-" else int(word) for word in words[2:])
    return all(
        len(given) <= tokens and sum(map(texts_len, given)) <= texts and not (given and returned)
        and int(state.split(" ")[2]) <= int(words[1]) + 1
        for given, returned, state in calls
    )


def is_row_right(testbench, row):
    words, data, wanted, digest = row
    lines = lines_of(testbench, ["batches", *words], data)
    if lines is None:
        return False
    calls = calls_of(lines)
    return " / ".join(map(shown, calls)) == wanted and digest_of(handed_out(calls)) == digest and is_within(words, calls)


def is_given_at_once(testbench, one):
    """Whether one call gives a sink all tokens, and returns the fault or that there is none, whatever its room is."""
    setting, limit, data, digest = one
    for room in "-", "0":
        lines = lines_of(testbench, ["to", setting, limit, room, room], data)
        if not lines or not all(line.startswith("GIVEN ") for line in lines[:-1]):
            return False
        fault = [] if lines[-1] == "ENDED" else lines[-1:]
        if digest_of([line.split(" ", 1)[1] for line in lines[:-1]] + fault) != digest:
            return False
    return True


def main(program):
    testbench = os.path.join(os.path.dirname(program), "..", "..", "testbench", "out", "testbench")
    every = list(rows())
    inputs = sorted({(words[0], words[1], data, digest) for words, data, _, digest in every})
    with ThreadPoolExecutor(max_workers=os.cpu_count()) as pool:
        found = list(pool.map(lambda row: is_row_right(testbench, row), every))
        at_once = list(pool.map(lambda one: is_given_at_once(testbench, one), inputs))
    wrong = [row for row, right in zip(every, found) if not right]
    for words, data, *_ in wrong[:10]:
        print(f"{words}, {data[:100]!r}")
    print(f"batches: {len(every)} compared, {len(wrong)} differ")
    others = [one for one, right in zip(inputs, at_once) if not right]
    for setting, limit, data, _ in others[:10]:
        print(f"to {setting} {limit}, {data[:100]!r}")
    print(f"batches: {len(inputs)} inputs given to a sink at once, {len(others)} differ")
    return 1 if wrong or others or not every else 0


if __name__ == "__main__":
    from lib.usage import given_program

    sys.exit(main(given_program()))
