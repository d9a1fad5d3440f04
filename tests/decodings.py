#!/usr/bin/env python3
"""Compares decoding with a plain reading of the rules (lib/reading.py), on inputs near all borders: decodings.py PROGRAM.

The program testbench, which is beside the given one, gives the text of each and the mark of its end, or what is wrong and where.
Of the 165,664 inputs 102,393 are refused. 100,000 are made from a fixed seed, in UTF-8 and both forms of UTF-16. Each of these is
a run of characters of one kind that is longer than the program looks at at a time, with a few pieces put in at random places:
characters at the ends of ranges, octets and units that may not stand there, halves of pairs, and characters that are cut.
Many are cut at the end too. Then each character at a border, and each unit with one octet of ASCII, is put at each place in
ASCII of 15 to 33 units of UTF-16, since sixteen units are looked at at a time, in both forms, whole and without the last octet.
And octets that may not stand there, and others, are put in at each place near the end of 64 and of 128 octets, between and in the
place of those of UTF-8's characters of two octets, of which 64 octets are looked at at a time.
Needs a C compiler for the last part: with every request for memory refused, forty texts are decoded from UTF-8.
"""

import os
import random
import subprocess
import sys
import tempfile

sys.path.insert(0, os.path.join(os.path.dirname(os.path.abspath(__file__)), "lib"))
sys.dont_write_bytecode = True
from reading import reading
from worked import build_refuser, run

COUNT = 100_000
SEED = 27
# the characters on both sides of each end of a range, whether they are characters of a text or not
BORDERS = [0x00, 0x08, 0x09, 0x0A, 0x0B, 0x0D, 0x1F, 0x20, 0x7E, 0x7F, 0x80, 0x84, 0x85, 0x86, 0x9F, 0xA0, 0x7FF, 0x800, 0xFFF,
           0x1000, 0x2028, 0x2029, 0xCFFF, 0xD7FF, 0xD800, 0xDBFF, 0xDC00, 0xDFFF, 0xE000, 0xFEFF, 0xFFBF, 0xFFC0, 0xFFFD, 0xFFFE,
           0xFFFF, 0x10000, 0x1FFFE, 0x3FFFF, 0x40000, 0xFFFFF, 0x100000, 0x10FFFD, 0x10FFFF, 0x110000, 0x13FFFF, 0x1FFFFF]
# units of which one octet is ASCII and the other is not 0
MIXED = [0x10A, 0x120, 0x161, 0x6100, 0x6161, 0x7F61, 0x8061, 0xFF61]
# octets that belong in no text, that are whole characters, or that are whole characters if the right ones are before or after them
OCTETS = [bytes.fromhex(octets) for octets in
          ["00", "09", "0a", "0d", "0d0a", "1f", "61", "7f", "80", "bf", "c080", "c1bf", "c2", "c280", "c285", "c29f", "c2a0", "c3",
           "c361", "c37f", "c380bf", "dfbf", "e0", "e080", "e0a080", "e28099", "eda080", "efbfbe", "f0908080", "f4908080", "ff"]]
# so many places of characters of one and two octets are looked at at a time
NARROW = 64
# what the runs are made of: the least and the greatest code point
KINDS = [(0x61, 0x7A), (0x20, 0x7E), (0x410, 0x44F), (0xA0, 0x7FF), (0x4E00, 0x9FFF), (0x900, 0x97F), (0xE000, 0xFFBF),
         (0x1F300, 0x1F64F), (0x10000, 0xFFFFF)]
SETTINGS = ["utf8", "utf8", "utf16le", "utf16be", "any"]
MARKS = [b"", b"\xef\xbb\xbf", b"\xff\xfe", b"\xfe\xff"]


def in_utf8(value, width=None):
    """The form of UTF-8, also of what is no character, and also with more octets than are needed."""
    width = width or (1 if value < 0x80 else 2 if value < 0x800 else 3 if value < 0x10000 else 4)
    if width == 1:
        return bytes([value])
    octets = []
    for _ in range(width - 1):
        octets.insert(0, 0x80 | value & 0x3F)
        value >>= 6
    return bytes([{2: 0xC0, 3: 0xE0, 4: 0xF0}[width] | value & {2: 0x1F, 3: 0x0F, 4: 0x07}[width], *octets])


def in_utf16(value, order):
    """The unit or the pair of units; half of a surrogate pair is a unit."""
    if value < 0x10000 or value > 0x10FFFF:
        return (value & 0xFFFF).to_bytes(2, order)
    value -= 0x10000
    return (0xD800 | value >> 10).to_bytes(2, order) + (0xDC00 | value & 0x3FF).to_bytes(2, order)


def spelled(value, encoding):
    return in_utf8(value) if encoding == "utf8" else in_utf16(value, "little" if encoding == "utf16le" else "big")


def piece(r, encoding):
    """A character at a border, one that is cut or too long, or any octets."""
    kind = r.randrange(6)
    value = r.choice(BORDERS)
    if kind == 0 and encoding == "utf8":
        return in_utf8(value & 0x7FF, r.choice([2, 3, 4]))
    if kind == 1:
        whole = spelled(value, encoding)
        return whole[: r.randrange(1, len(whole) + 1)]
    if kind == 2:
        return bytes(r.choice([0x7F, 0x80, 0xBF, 0xC0, 0xC1, 0xC2, 0xDF, 0xE0, 0xED, 0xEF, 0xF0, 0xF3, 0xF4, 0xF7, 0xF8, 0xFF]) for _ in range(r.randrange(1, 4)))
    return spelled(value, encoding)


def make_run(r, encoding, length):
    least, most = r.choice(KINDS)
    return [spelled(r.randint(least, most), encoding) for _ in range(length)]


def make_input(r):
    setting = r.choice(SETTINGS)
    mark = r.choice(MARKS) if setting == "any" else b""
    encoding = {b"\xff\xfe": "utf16le", b"\xfe\xff": "utf16be"}.get(mark, "utf8") if setting == "any" else setting
    parts = make_run(r, encoding, r.choice([0, 1, 3, 7, 16, 20, 33, 64, 70, 100]))
    if r.random() < 0.3:
        parts += make_run(r, encoding, r.randrange(1, 40))
    for _ in range(r.choice([0, 1, 1, 1, 2])):
        parts.insert(r.randint(0, len(parts)), piece(r, encoding))
    data = mark + b"".join(parts)
    return setting, data[: r.randint(0, len(data))] if r.random() < 0.3 else data


def in_blocks():
    """ASCII in UTF-16 with something at each place in it, whole and without its last octet."""
    for setting in "utf16le", "utf16be":
        for length in 15, 16, 17, 31, 32, 33:
            run = [spelled(0x61 + k % 26, setting) for k in range(length)]
            for place in range(length + 1):
                for value in BORDERS + MIXED:
                    data = b"".join([*run[:place], spelled(value, setting), *run[place:]])
                    yield setting, data
                    yield setting, data[:-1]


def in_narrow_blocks():
    """Characters of two octets in UTF-8, with octets between and in the place of theirs, at each place near the ends of blocks."""
    for front in b"", b"a":
        for letter in "\u00e9", "\u0436", "\u07ff":
            run = front + letter.encode() * 120
            for place in [*range(4), *range(NARROW - 6, NARROW + 8), *range(2 * NARROW - 56, 2 * NARROW + 14)]:
                for octets in OCTETS:
                    yield "utf8", run[:place] + octets + run[place:]
                    yield "utf8", run[:place] + octets + run[place + len(octets) :]
                yield "utf8", run[:place]


def answers(program, inputs):
    lines = "".join(f"decode {setting} {data.hex() or '-'}\n" for setting, data in inputs)
    done = subprocess.run([program], input=lines.encode(), capture_output=True, check=True, timeout=600)
    return done.stdout.decode().splitlines()


def compare(program):
    r = random.Random(SEED)
    inputs = [make_input(r) for _ in range(COUNT)] + list(in_blocks()) + list(in_narrow_blocks())
    found = answers(program, inputs)
    wanted = [reading(setting, data) for setting, data in inputs]
    wrong = [it for it in zip(inputs, found, wanted) if it[1] != it[2]]
    for (setting, data), line, right in wrong[:10]:
        print(f"decode {setting} {data.hex()}: wanted {right}, got {line}")
    refused = sum(line.startswith("REFUSED") for line in wanted)
    print(f"decodings: {len(inputs)} inputs, of which {refused} are refused: {len(wrong)} differ")
    return len(found) == len(inputs) and not wrong


def takes_no_memory(program):
    """Whether each kind of run is decoded from UTF-8 with every request for memory refused after the input is read."""
    r = random.Random(SEED)
    with tempfile.TemporaryDirectory() as room:
        refuser = build_refuser(room)
        texts = [b"".join(make_run(r, "utf8", 1500)) for _ in range(40)]
        wrong = [text for text in texts if run(program, ["decode", "utf8"], text, refuser, "1-", True).stdout != b"TEXT YAML_UTF8_ENCODING " + text + b"\n"]
    print(f"decodings: {len(texts)} texts in UTF-8 with no memory: {len(wrong)} not decoded")
    return not wrong


def main(program):
    program = os.path.join(os.path.dirname(os.path.abspath(program)), "..", "..", "testbench", "out", "testbench")
    passed = [compare(program), takes_no_memory(program)]
    return 0 if all(passed) else 1


if __name__ == "__main__":
    from lib.usage import given_program

    sys.exit(main(given_program()))
