#!/usr/bin/env python3
"""Runs the program with less and less address space: refused.py PROGRAM.

If a growth is refused, the program says that it is out of memory and has written nothing, or its lines are a beginning of
those with ample memory and then the one fault of kind memory. Every other run gives all the lines.
"""

import resource
import subprocess
import sys
from concurrent.futures import ThreadPoolExecutor
from os import cpu_count

PIECE = 64 * 1024
MOST = 32 * 1024 * 1024

ITEM = "- key: [plain, 'single', \"double\\n\"]\n  other: !tag &a |\n    text\n"

INPUTS = [
    ("utf8", (ITEM * 2000).encode("utf-8")),
    ("utf16le", (ITEM * 2000).encode("utf-16-le")),
    ("utf8", b'"' + b"a\\n" * 300_000 + b'"'),
    ("utf8", b"[" * 40_000),
]


def run(program, words, data, room=None):
    def less():
        resource.setrlimit(resource.RLIMIT_AS, (room, room))

    return subprocess.run([program, *words], input=data, capture_output=True, timeout=60, preexec_fn=less if room else None)


def least_room(program):
    """The least address space, in pieces, in which the program scans nothing at all."""
    low, high = 0, MOST // PIECE
    while low + 1 < high:
        middle = (low + high) // 2
        try:
            starts = run(program, ["scan", "any"], b"", middle * PIECE).returncode == 0
        except (OSError, subprocess.SubprocessError):
            starts = False
        low, high = (low, middle) if starts else (middle, high)
    return high


def is_right(done, whole):
    if (done.stdout, done.returncode, done.stderr) == (whole.stdout, whole.returncode, b""):
        return "whole"
    if (done.stdout, done.returncode, done.stderr) == (b"", 3, b"yamltok: out of memory\n"):
        return "nothing"
    end = b"FAULT memory\n"
    if done.returncode == 1 and not done.stderr and done.stdout.endswith(end) and whole.stdout.startswith(done.stdout[: -len(end)]):
        return "beginning"
    return None


def main(program):
    least = least_room(program)
    seen = {"whole": 0, "nothing": 0, "beginning": 0, None: 0}
    for setting, data in INPUTS:
        words = ["scan", setting]
        whole = run(program, words, data)
        rooms = range(least, least + MOST // PIECE, 5)
        with ThreadPoolExecutor(max_workers=cpu_count()) as pool:
            for room, done in zip(rooms, pool.map(lambda room: run(program, words, data, room * PIECE), rooms)):
                found = is_right(done, whole)
                seen[found] += 1
                if found is None:
                    print(f"{setting}, {len(data)} bytes, {room * PIECE} bytes of room: status {done.returncode}, {done.stderr!r}")
    wrong = seen.pop(None)
    print("refused: " + ", ".join(f"{count} {name}" for name, count in seen.items()) + f", {wrong} wrong")
    return 1 if wrong or not seen["whole"] or not seen["nothing"] + seen["beginning"] else 0


if __name__ == "__main__":
    from lib.usage import given_program

    sys.exit(main(given_program()))
