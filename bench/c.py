#!/usr/bin/env python3
"""Measures the scanner as C calls it, and under libyaml's parser, beside libyaml and libfyaml: best and median of nine.

c.py needs the libraries that ffi/build and uses/libyaml/build make, a C compiler and libyaml's header and library
(Debian: libyaml-dev); libfyaml is measured if its header is there (libfyaml-dev). All take the same bytes, from memory,
at once or in pieces of 4,096 and 65,536 bytes, in turn, in one run on one core, and nothing is listed. Then it tells how much memory uses/libyaml and libyaml take
beside the input. c.py FILE.. measures those files in place of its own two texts. At the end, for manifests, JSON and the
shortest texts, it tells the nanoseconds that a token takes, and that a text takes from its opening to its closing, with
rooms that are made once.
"""

import datetime
import os
import platform
import subprocess
import sys
import tempfile

from common import answer_help
from dense import dense
from realistic import realistic
from texts import from_c

HERE = os.path.dirname(os.path.abspath(__file__))
TOP = os.path.dirname(HERE)
FFI = os.path.join(TOP, "ffi")
OURS = os.path.join(TOP, "uses", "libyaml", "out", "libyaml-0.so.2")
PINNED = ["taskset", "-c", "1"]


def machine():
    """The processor, how many there are, and how much work is on them."""
    with open("/proc/cpuinfo", encoding="utf-8") as lines:
        names = [line.split(":")[1].strip() for line in lines if line.startswith("model name")]
    return f"{names[0] if names else platform.machine()}, {os.cpu_count()} processors, load {os.getloadavg()[0]:.1f}"


def has_libfyaml():
    words = ["cc", "-fsyntax-only", "-x", "c", "-"]
    return subprocess.run(words, input=b"#include <libfyaml.h>\n", capture_output=True).returncode == 0


def build(room):
    path = os.path.join(room, "c")
    more = ["-DWITH_LIBFYAML", "-lfyaml"] if has_libfyaml() else []
    parts = [os.path.join(HERE, "c.c"), os.path.join(FFI, "out", "libbogzhami.a"), "-ldl"]
    subprocess.run(["cc", "-std=c11", "-O2", "-I", FFI, *parts, *more, "-o", path], check=True)
    return path


def run(*words):
    return subprocess.run([*PINNED, *words], check=True, capture_output=True, text=True).stdout


def measure(program, path, libyaml):
    """A line for each measure: whether tokens or events are taken, by which library, how many, and two times."""
    for line in run(program, "times", path, libyaml, OURS).splitlines():
        what, who, count, best, median = line.split("\t")
        yield what, who, int(count), float(best), float(median)


def tell_times(name, size, lines):
    print(f"\n{name}, {size} bytes\n")
    print("| what | by | number | best (median) in s | MB/s | times as fast as libyaml |\n|---|---|---|---|---|---|")
    libyaml = {what: best for what, who, _, best, _ in lines if who == "libyaml"}
    for what, who, count, best, median in lines:
        speed, times = size / best * 1e3, libyaml[what] / best
        print(f"| {what} | {who} | {count} | {best / 1e9:.4f} ({median / 1e9:.4f}) | {speed:.1f} | {times:.2f} |")


def tell_memory(program, path, libyaml):
    """The most of three runs, since the system counts the memory of a program a little late."""
    print("\n| what | by | memory beside the input, KB |\n|---|---|---|")
    for what in ("tokens", "events"):
        for who, library in (("uses/libyaml", OURS), ("libyaml", libyaml)):
            most = max(int(run(program, "memory", path, library, what)) for _ in range(3))
            print(f"| {what} | {who} | {most} |")


def tell_texts(program, room, libyaml):
    """Nanoseconds for texts that are opened, scanned and closed one after the other, some 2 MB or 20,000 texts a run."""
    print("\n| texts | number | bytes | tokens | by | ns a token, best (median) | ns a text | times as fast as libyaml |")
    print("|---|---|---|---|---|---|---|---|")
    for name, texts in from_c():
        paths = [os.path.join(room, f"text.{at}") for at in range(len(texts))]
        for path, text in zip(paths, texts):
            with open(path, "w", encoding="ascii") as file:
                file.write(text)
        size = sum(map(len, texts))
        times = min(2_000_000 // max(size, 1), 20_000)
        lines = [line.split("\t")[1:] for line in run(program, "texts", str(times), libyaml, *paths).splitlines()]
        of_libyaml = next(float(best) for who, _, best, _ in lines if who == "libyaml")
        for who, count, best, median in lines:
            token, half, text = float(best) / int(count), float(median) / int(count), float(best) / len(texts)
            about = f"{name} | {len(texts)} | {size} | {count} | {who}"
            print(f"| {about} | {token:.1f} ({half:.1f}) | {text:.0f} | {of_libyaml / float(best):.2f} |")


def write_texts(room):
    """Writes the two texts into a folder, and yields their paths."""
    for name, text in (("realistic.yaml", realistic(10_000_000, 7)), ("dense.yaml", dense(10_000_000, 7))):
        path = os.path.join(room, name)
        with open(path, "w", encoding="ascii") as file:
            file.write(text)
        yield path


def main():
    words = ["cc", "-print-file-name=libyaml.so"]
    libyaml = subprocess.run(words, check=True, capture_output=True, text=True).stdout.strip()
    print(f"{datetime.date.today()}; {machine()}")
    with tempfile.TemporaryDirectory() as room:
        program = build(room)
        for path in sys.argv[1:] or write_texts(room):
            tell_times(os.path.basename(path), os.path.getsize(path), list(measure(program, path, libyaml)))
            tell_memory(program, path, libyaml)
        tell_texts(program, room, libyaml)


if __name__ == "__main__":
    answer_help()
    main()
