#!/usr/bin/env python3
"""Writes tests/requests.txt: by_hand/requests.py TESTBENCH, with the testbench of the commit that is to be compared with.

A line has the words of a command of testbench, the input in hexadecimal, how many requests for memory the command makes after
the input is read, and the most bytes that one of them asks for, with tabs between them. For calls that list tokens the bytes
are `-`, since the greatest request is that of the queue. counts.py takes the numbers for the most that today's program may
request. So the file must not be made with the program that it tests: tests/README.md says how the other one is built. Needs a
C compiler.
"""

import os
import sys
import tempfile
from concurrent.futures import ThreadPoolExecutor

TESTS = os.path.dirname(os.path.dirname(os.path.abspath(__file__)))
sys.path[:0] = [TESTS, os.path.join(TESTS, "lib")]
sys.dont_write_bytecode = True
from counts import REQUESTS
from worked import build_refuser, run_told

SCANS = "s" * 16
# uris with an escape, after so many characters
ESCAPED = ["!e!%s%%41 x", "!<%s%%41> x", "!!%s%%C3%%A9 x", "!/%s%%41 x", "!%s%%41 x", "%%TAG ! %s%%41\n--- x"]
TAGS = [
    "!a x", "!!a x", "!e!a x", "!<a> x", "! x", "!a%41 x", "!e!a%41 x", "!<a%41> x", "!!caf%C3%A9 x", "!/a%41 x",
    "%TAG ! a%41\n--- x", "%TAG !e! a\n--- x", "!e!a%41b%42c%43 x", "!<tag:example.org,2002:a%41b> x",
    "!<" + "a" * 100 + "%41> x", "[!e!a%41 x, !a y, !<a> z]", "&a !a x", "!e!%zz x", "!e!abc%4 x",
]
LOW, HIGH, ODD, BEFORE_A = b"\x00\xdc", b"\x00\xd8", b"\x61", b"\x00\xd8\x61\x00"
RUSSIAN = "Все счастливые семьи похожи друг на друга"
ACCENTS = "The café is a naïve idea of a façade, and what comes after it is plain"
PLAIN = "A text in plain letters that is longer than most registers are, by some bytes"


def wide():
    """The inputs in UTF-16, little end first."""
    for text in "a" * 17, "a" * 33, "\u4e2d" * 17, "":
        for broken in LOW, HIGH, ODD, BEFORE_A:
            yield text.encode("utf-16-le") + broken
    texts = ["a" * 17 + "\u0080", "\uff21" * 2, "a\uff21", "\uff21a", "a" * 17, "a" * 33, RUSSIAN, ACCENTS, PLAIN]
    texts += ["\u4e2d" * count for count in range(1, 61)]
    texts += ["\u0436" * count for count in range(1, 41)]
    texts += ["\U0001f600\ufe0f" * count for count in range(1, 21)]
    texts += [text[:count] for text in (RUSSIAN, ACCENTS) for count in (5, 10, 20, 30)]
    yield from (text.encode("utf-16-le") for text in texts)


def asked():
    """What is asked: the words and the input, each once."""
    uris = [form % ("a" * count) for form in ESCAPED for count in range(21)]
    for text in [*TAGS, *uris]:
        for words in "front any", f"each any 1024 {SCANS}", "batches any 1024 - -":
            yield words, text.encode("ascii")
    for data in wide():
        for words in "decode utf16le", f"each utf16le 1024 {SCANS}", "batches utf16le 1024 - -":
            yield words, data


def row_of(testbench, refuser, words, data):
    done, counts, _, greatest = run_told(testbench, words.split(" "), data, refuser, 0, after_reading=True)
    if done.stderr or done.returncode:
        sys.exit(f"{words}, {data[:80]!r}: the program fails")
    most = greatest if words.split(" ")[0] in ("front", "decode") else "-"
    return f"{words}\t{data.hex()}\t{sum(counts)}\t{most}\n"


def main(testbench):
    with tempfile.TemporaryDirectory() as room, ThreadPoolExecutor(max_workers=os.cpu_count()) as pool:
        refuser = build_refuser(room)
        lines = list(pool.map(lambda one: row_of(testbench, refuser, *one), dict.fromkeys(asked())))
    with open(REQUESTS, "w", encoding="ascii") as file:
        file.writelines(lines)
    print(f"{len(lines)} rows, {os.path.getsize(REQUESTS)} bytes")


if __name__ == "__main__":
    if len(sys.argv) != 2 or sys.argv[1].startswith("-"):
        sys.exit(__doc__)
    main(sys.argv[1])
