#!/usr/bin/env python3
"""Compares the library with libyaml on texts with random mistakes: mutants.py [PROGRAM] [--files PATH ..] [--count N] [--seed S].

A mutant is a text with one to three changes, each at a random place: a character is replaced or put in, a run of characters
is cut out, doubled, or repeated until it is about as long as a key may be, or the text ends there. Most characters that are put
in mean something in YAML. The texts are the worked rows, the inputs of vectors/scan.txt.gz that can be decoded, and parts of
texts of bench/, most of up to 400 characters. Some mutants are in UTF-16, have a byte order mark, or end within a character.
With --files the texts are these files, and all files in these folders. Without words there are 100,000 mutants, always the same.

mutants.c scans each mutant with libyaml and with the library. All tokens up to the stream end or the fault are the same: types,
marks, texts, styles, encodings and versions. So is the fault, in words and marks. Indexes of libyaml, which count characters, are
turned into bytes. Each record says where the input has the token's text as it is. Then bogzhami_next takes the tokens in batches
of eight sizes, and bogzhami_peek shows each before it is taken, with much room for texts and with just as much as a token needs;
and bogzhami_next_piece takes them while the mutant comes in pieces of one byte, and of some more.
Each of these calls gives exactly what bogzhami_scan_all says, also before a fault. They are made with libyaml's key limit, and
with another: 1 to 40 and 65,536 by turns.

What libyaml is documented to do otherwise (docs/DIFFERENCES.md) is skipped and counted. At most a tenth of all mutants may be:

- The mutant is no text. libyaml then gives no token, or fewer. The tokens have to be the first ones that libyaml gives of the
  text in front, and the fault has to be libyaml's; but how many tokens come before it is not compared.
- A line has characters that are not of ASCII, and more bytes than a key may have. libyaml counts the characters of a key.
- There is a `%00`, which is the end of a text in libyaml.

What needs a C compiler or libyaml-dev is skipped if there is none.
"""

import argparse
import gzip
import os
import random
import re
import shutil
import struct
import subprocess
import sys
import tempfile
from concurrent.futures import ThreadPoolExecutor

HERE = os.path.dirname(os.path.abspath(__file__))
TOP = os.path.dirname(HERE)
sys.path[:0] = [os.path.join(HERE, "lib"), os.path.join(TOP, "bench")]
sys.dont_write_bytecode = True
from dense import dense
from library import build_library
from realistic import realistic
from texts import accented, entries, json_text, keys_of_keys, manifest, mixed, scripts, short_entries
from usage import tell
from worked import is_utf8, rows

WORDS = "[PROGRAM] [--files PATH ..] [--count N] [--seed S]"
FFI = os.path.join(TOP, "ffi")
COUNT, SEED = 100_000, 1
PORTION = 1000  # so many mutants are given to a run of mutants.c
TIMEOUT = 60
KEY_LIMIT = 1024
LIMITS = [*range(1, 41), 65_536]
MOST_BYTES = 16_000  # that mutants.c takes
MOST_OF_A_FILE = 1_000_000
MOST_SHOWN = 20
BREAK = re.compile(rb"[\r\n]|\xc2\x85|\xe2\x80[\xa8\xa9]")

# What is put in: characters that mean something, words of several, and those of two to four bytes, some of which break lines.
LETTERS = list(" \t\n\r-?:,[]{}#&*!|>'\"%@`\\/~<=+.0123aAbefnNLPuUxz_ -?:\n")
TOGETHER = [": ", "- ", "? ", " #", "''", '\\"', "\n\n", "\r\n", "\n ", "\n  ", "---", "...", "\n---\n", "\n...\n"]
TOGETHER += ["|-\n", ">2+\n", "!!str ", "!<a>", "!e!f", "%41", "%C3%A9", "\\x41", "\\u263A", "\\U0001F600", "&a ", "*a ", "{}"]
TOGETHER += ["%YAML 1.1\n", "%YAML 3.20 # c\n", "%YAML 1.0123456789\n", "%TAG ! tag:\n", "%TAG !e! %41:e,2000/\n"]
OTHERS = list("\x85\u2028\u2029\ufeffäß中\u0905😀\ud7ff\ue000\ufffd")


# TEXTS

def short_texts():
    """The worked rows, and the inputs of the vectors that can be decoded, in UTF-8."""
    known = [(words[1], data, lines) for words, data, lines in rows()]
    with gzip.open(os.path.join(HERE, "vectors", "scan.txt.gz"), "rt", encoding="ascii") as lines:
        for line in lines:
            words, data, wanted = line.split("\t")
            known.append((words.split(" ")[1], bytes.fromhex(data.strip("-")), wanted.split(" / ")))
    chosen = [data for setting, data, lines in known if is_utf8(setting, data) and "FAULT reader" not in "".join(lines[-1:])]
    return [characters(data) for data in dict.fromkeys(chosen)]


def long_texts():
    """Texts of bench/, of some thousand characters each."""
    r = random.Random(7)
    made = [text for seed in range(8) for text in (realistic(4000, seed), dense(4000, seed))]
    made += [mixed(r, text) for text in made[:4]] + [accented(r, text) for text in made[4:8]]
    made += [manifest(r) for _ in range(8)]
    made += [json_text(4000), json_text(4000, None), short_entries(300), keys_of_keys(200)]
    made += [entries(*ends, 200) for ends in ((" ", "\r\n"), (" ", "  \n"), (" \u201c", "\u201d\n"), ("\n  - ", "\n"))]
    return made + [text for _, text in scripts(3000, r)]


def paths_of(words):
    """The files, and those in the folders, that are named."""
    for word in words:
        if not os.path.isdir(word):
            yield word
        for folder, folders, names in os.walk(word):
            folders.sort()
            yield from (os.path.join(folder, name) for name in sorted(names) if os.path.isfile(os.path.join(folder, name)))


def file_texts(words):
    """The texts of files, or the beginnings of long ones."""
    for path in paths_of(words):
        with open(path, "rb") as file:
            yield characters(file.read(MOST_OF_A_FILE))


def characters(data):
    """The characters of bytes. A byte that spells none stands for itself."""
    return data.decode("utf-8", "surrogateescape")


def part_of(r, text):
    """A part of a text that mostly begins a line. It has 20 to 400 characters, and sometimes up to 4,000."""
    length = r.randrange(20, 400 if r.random() < 0.98 else 4000)
    if len(text) <= length:
        return text
    start = text.rfind(r.choice("\n\n\n "), 0, r.randrange(len(text))) + 1
    return text[start : start + length]


# MUTANTS

def put_in(r):
    """What is put in: sometimes any byte."""
    kind = r.random()
    if kind < 0.02:
        return characters(bytes([r.randrange(256)]))
    return r.choice(LETTERS if kind < 0.7 else TOGETHER if kind < 0.92 else OTHERS)


def long_run(r, text):
    """A text repeated until it is about as long as a key may be, sometimes as a key."""
    length = r.randrange(KEY_LIMIT - 8, KEY_LIMIT + 4)
    return (text * length)[:length] + r.choice(["", ": "])


def changed(r, text):
    """A text with one change at a random place."""
    at = r.randrange(len(text) + 1)
    if r.random() < 0.15:
        at = text.rfind("\n", 0, at) + 1
    run = r.choice((1, 1, 1, 1, 2, 3, 5, 8, 16, 40))
    kind = r.random()
    if kind < 0.55:
        return text[:at] + put_in(r) + text[at + r.randrange(2) :]
    if kind < 0.74:
        return text[:at] + text[at + run :]
    if kind < 0.92:
        return text[: at + run] + text[at:]
    if kind < 0.94:
        return text[:at] + long_run(r, text[at : at + run]) + text[at + run :]
    return text[:at]


def encoded(r, text):
    """The bytes of a text: mostly in UTF-8 without a byte order mark. Few are cut at any byte."""
    kind = r.random()
    if kind < 0.9:
        data = text.encode("utf-8", "surrogateescape")
    elif kind < 0.92:
        data = b"\xef\xbb\xbf" + text.encode("utf-8", "surrogateescape")
    else:
        mark, codec = (b"\xff\xfe", "utf-16-le") if kind < 0.96 else (b"\xfe\xff", "utf-16-be")
        data = mark + text.encode(codec, "surrogatepass")
    return (data[: r.randrange(len(data) + 1)] if r.random() < 0.02 else data)[:MOST_BYTES]


def may_differ(text):
    """Whether libyaml may give other tokens of a text: a line may be a key that only bytes make too long, or a tag has a 0."""
    data = text.encode("utf-8", "surrogateescape")
    runs = BREAK.split(data) if len(data) > KEY_LIMIT and not data.isascii() else []
    return b"%00" in data or any(len(run) > KEY_LIMIT and not run.isascii() for run in runs)


def mutants(texts, seed, portion, count):
    """The mutants of a portion, each as mutants.c reads it."""
    r = random.Random(f"{seed} {portion}")
    for number in range(portion * PORTION, min(count, (portion + 1) * PORTION)):
        text = part_of(r, r.choice(r.choice(texts)))
        for _ in range(r.randrange(1, 4)):
            text = changed(r, text)
        data = encoded(r, text)
        yield struct.pack("=IIQ", LIMITS[number % len(LIMITS)], may_differ(text), len(data)) + data


# SCANS

def answer(program, given):
    """The counts of a run of mutants.c, and what it says is wrong; no counts if it does not end well."""
    try:
        done = subprocess.run([program], input=given, capture_output=True, timeout=TIMEOUT)
    except subprocess.TimeoutExpired:
        return None, [f"more than {TIMEOUT} seconds"]
    told = done.stdout.decode("utf-8", "replace").splitlines()
    if done.returncode or not told:
        return None, [*told, f"status {done.returncode} {done.stderr.decode('utf-8', 'replace').strip()}"]
    return [int(word) for word in told[-1].split()], told[:-1]


def try_portion(program, texts, seed, portion, count):
    """The counts of a portion, and what is wrong. If the program does not end well, each mutant is given to it alone."""
    given = list(mutants(texts, seed, portion, count))
    counts, told = answer(program, b"".join(given))
    if counts:
        return counts, told
    alone = [(one, *answer(program, one)) for one in given]
    ended = [counts for _, counts, _ in alone if counts]
    lost = [f"wrong: {lines[-1]}, input {one[16:].hex()}" for one, counts, lines in alone if not counts]
    sums = [sum(column) for column in zip(*ended)] if ended else [0] * 5
    sums[0] += len(lost)
    sums[4] += max(1, len(lost))
    return sums, [*told[-1:], *lost, *(line for _, counts, lines in alone if counts for line in lines)]


def try_all(program, texts, seed, count):
    """The sums of all counts, and what is wrong."""
    portions = range(-(-count // PORTION))
    with ThreadPoolExecutor(max_workers=os.cpu_count()) as pool:
        ends = list(pool.map(lambda portion: try_portion(program, texts, seed, portion, count), portions))
    return [sum(column) for column in zip(*(counts for counts, _ in ends))], [line for _, told in ends for line in told]


def build(room):
    """Compiles mutants.c over the library for C and libyaml."""
    program, library = os.path.join(room, "mutants"), os.path.join(FFI, "out", "libbogzhami.a")
    words = ["-std=c11", "-Wall", "-Wextra", "-Wpedantic", "-Werror", "-O2", "-I", FFI]
    subprocess.run(["cc", *words, os.path.join(HERE, "mutants.c"), library, "-lyaml", "-o", program], check=True)
    return program


def has_libyaml():
    """Whether there are a C compiler, and libyaml's header."""
    if shutil.which("cc") is None:
        return False
    told = subprocess.run(["cc", "-fsyntax-only", "-x", "c", "-"], input=b"#include <yaml.h>\n", capture_output=True)
    return told.returncode == 0


def main(words):
    if not has_libyaml():
        print("mutants: skipped: no C compiler, or no libyaml-dev")
        return 0
    texts = [list(file_texts(words.files))] if words.files else [short_texts(), long_texts()]
    if not all(texts):
        print("mutants: there are no files in these folders")
        return 1
    build_library()
    with tempfile.TemporaryDirectory() as room:
        counts, told = try_all(build(room), texts, words.seed, words.count)
    count, faults, undecoded, differing, wrong = counts
    skipped = undecoded + differing
    print("\n".join([*told[: 3 * MOST_SHOWN], f"mutants: skipped: {undecoded} are no text, {differing} have long lines or %00"]))
    print(f"mutants: {count} mutants, {faults} faults, {skipped} skipped, {wrong} wrong")
    return 1 if wrong or count != words.count or 10 * skipped > count else 0


def given_words():
    """What is given: files or folders, how many mutants, and the seed. Other words end the script."""
    if {"-h", "--help"} & set(sys.argv[1:]):
        tell(WORDS, 0)
    parser = argparse.ArgumentParser(add_help=False, allow_abbrev=False)
    parser.error = lambda _: tell(WORDS, 2)
    parser.add_argument("program", nargs="?")
    parser.add_argument("--files", nargs="+", default=[])
    parser.add_argument("--count", type=int, default=COUNT)
    parser.add_argument("--seed", type=int, default=SEED)
    words = parser.parse_args()
    for path in words.files:
        if not os.path.exists(path):
            sys.stderr.write(f"{sys.argv[0]}: there is no file {path}\n")
            sys.exit(2)
    return words if words.count > 0 else tell(WORDS, 2)


if __name__ == "__main__":
    sys.exit(main(given_words()))
