#!/usr/bin/env python3
"""Compares the program with the files of tests/vectors: vectors.py PROGRAM.

A line of such a file, which may be compressed, has three parts, separated by tabs: the words of a command, the input in
hexadecimal (`-` if it is empty), and the expected lines, joined by ` / `. The exit status must be 1 if one of
them is a fault, else 0.
"""

import gzip
import os
import subprocess
import sys
from concurrent.futures import ThreadPoolExecutor


def vectors(folder):
    for name in sorted(os.listdir(folder)):
        opened = gzip.open if name.endswith(".gz") else open
        with opened(os.path.join(folder, name), "rt", encoding="ascii") as lines:
            for number, line in enumerate(lines, 1):
                words, data, wanted = line.rstrip("\n").split("\t")
                yield f"{name}:{number}", words.split(" "), bytes.fromhex(data.strip("-")), wanted.split(" / ") if wanted else []


def differs(program, vector):
    place, words, data, wanted = vector
    done = subprocess.run([program, *words], input=data, capture_output=True, timeout=60)
    text = "".join(line + "\n" for line in wanted).encode("ascii")
    status = int(any(line.startswith("FAULT") for line in wanted))
    if (done.stdout, done.returncode, done.stderr) == (text, status, b""):
        return None
    return f"{place}: {' '.join(words)}: wanted {text!r} and status {status}, got {done.stdout!r}, {done.stderr!r} and status {done.returncode}"


def main(program):
    folder = os.path.join(os.path.dirname(os.path.abspath(__file__)), "vectors")
    every = list(vectors(folder))
    with ThreadPoolExecutor(max_workers=os.cpu_count()) as pool:
        wrong = [text for text in pool.map(lambda vector: differs(program, vector), every) if text]
    for text in wrong[:20]:
        print(text)
    print(f"vectors: {len(every)} compared, {len(wrong)} differ")
    return 1 if wrong or not every else 0


if __name__ == "__main__":
    from lib.usage import given_program

    sys.exit(main(given_program()))
