#!/usr/bin/env python3
"""Calls the module of python/ over the library of ffi/: python.py [PROGRAM].

Alone: every input of vectors/scan.txt.gz is listed as expected, every tenth also in batches of 1, 2, 7 and 100,000 tokens, and
the worked rows by `python3 -m bogzhami` as by PROGRAM. Faults, settings, kinds of input, scanners that are given up, memory
that is refused, threads, and the places where the library is looked for are tried by hand, and the programs of python/README.md
print what it says. So are the exit statuses of `python3 -m bogzhami`: wrong words, reads and writes that fail, a closed pipe,
interrupts, and no library, where help and version are there all the same.

The worked rows, as bytes and `str`, in UTF-8 and UTF-16, are also cut into pieces, for a Feeder and for files that are read in
pieces: tokens and faults are those of the whole. Tokens come before the rest is read, before a read that fails, and out of a pipe
that is held open; a literal of 20 megabytes in pieces takes time in proportion.

A copy of the checkout, in a folder with a blank in its name, is used with no variable, and by pip in a new virtual environment
of each Python that makes one: installed, installed as it stands, and as a wheel, with nothing fetched. Of an installed package
the version, the types and the library are looked at, and that all goes when it is removed; of a wheel, its list of files. The
stubs have the names and the parameters of the modules.

With PyYAML: on some 50,000 texts of the repository (bytes and `str`), tokens, marks and errors are those of its C loader, but
for the differences that python/README.md lists, which lib/loading.py recognises exactly; each of them has to occur. Where its
own scanner gives the same tokens, marks have the same index, pointer and buffer, and errors show the same lines; block ends and
the stream end of a text whose last line has no break are where its own scanner has them. Events and nodes are the same with and
without short cuts, and values are those of PyYAML's loaders. Loaders that are made of other classes load the same as these,
with their own methods and with what is added later; and `%YAML 1.3` is taken here and refused by the C loader.

With yamllint: its messages are the same for each text of which both scanners give the same tokens.

What needs PyYAML's C loader or yamllint is skipped, and says so, if there is none.
"""

import collections
import fcntl
import gc
import io
import itertools
import json
import os
import pathlib
import pickle
import re
import shutil
import signal
import struct
import subprocess
import sys
import tempfile
import termios
import threading
import time
import tracemalloc
from concurrent.futures import ThreadPoolExecutor

HERE = os.path.dirname(os.path.abspath(__file__))
TOP = os.path.dirname(HERE)
FOLDER = os.path.join(TOP, "python")
LIBRARY = os.path.join(TOP, "ffi", "out", "libbogzhami.so")
sys.path[:0] = [HERE, os.path.join(HERE, "lib"), FOLDER]
sys.dont_write_bytecode = True
from ffi import vectors
from installing import copy_of_checkout, wrong_in_checkout, wrong_stub, wrong_with_pip
from library import build_library
from libyaml import batch_ends, long_texts, yaml_files
from libyaml import vectors as settings_and_inputs
from libyaml_lists import CODECS
from realistic import realistic
from worked import rows

ENVIRONMENT = {**os.environ, "BOGZHAMI_LIBRARY": LIBRARY, "PYTHONPATH": FOLDER, "PYTHONDONTWRITEBYTECODE": "1"}
DEBIAN = "/usr/bin/python3"
C_LOADER = "import yaml; yaml.CSafeLoader"
YAMLLINT = "import yaml, yamllint.linter"

# Inputs with their fault: its message, its kind, and how many tokens come before it.
FAULTS = [
    (b"a: b: c", "1:5: mapping values are not allowed in this context", "scanner", 6),
    ("- é 'b'\n- 'ü", "2:5: found unexpected end of stream, while scanning a quoted scalar that starts at 2:3", "scanner", 5),
    (b"%FOO x\n--- a", "1:5: found unknown directive name, while scanning a directive that starts at 1:1", "scanner", 1),
    (b"a: 1\nb: \xc3\xa9\xff\nc: d", "2:5: invalid leading UTF-8 octet (byte 11 of the input)", "reader", 1),
    ("- abcdefghijkl\n- \ud800", "2:3: invalid Unicode character (byte 18 of the input)", "reader", 3),
    (b"\xff\xfe-\0 \0\xe9\0\x00\xd8a\0", "1:4: expected low surrogate area (byte 11 of the input)", "reader", 0),
    (b"- \xe2\x82", "1:3: incomplete UTF-8 octet sequence (byte 3 of the input)", "reader", 0),
    # the step near it is the one before: STREAM-START and the fault, and nothing of `ab: cd`
    (b"ab: cd\nx: \377b", "2:4: invalid leading UTF-8 octet (byte 11 of the input)", "reader", 1),
]

# Inputs with what PyYAML's exceptions say.
ERRORS = [
    (
        "a:\n  ü b: c: d\n",
        'mapping values are not allowed in this context\n  in "<unicode string>", line 2, column 9:\n'
        "      ü b: c: d\n            ^",
    ),
    (
        "- é\n- 'ü".encode("utf-16"),
        'while scanning a quoted scalar\n  in "<byte string>", line 2, column 3:\n    - \'ü\n      ^\n'
        'found unexpected end of stream\n  in "<byte string>", line 2, column 5:\n    - \'ü\n        ^',
    ),
    (
        "a: 1\nbü",
        'while scanning a simple key\n  in "<unicode string>", line 2, column 1:\n    bü\n    ^\n'
        "could not find expected ':'\n  in \"<unicode string>\", line 2, column 3:\n    bü\n      ^",
    ),
    ("é\x01", 'unacceptable character #x0001: control characters are not allowed\n  in "<unicode string>", position 1'),
    (b"\xc3\xa9\x01", 'unacceptable character #x0001: control characters are not allowed\n  in "<byte string>", position 2'),
    ("é \ud800", 'unacceptable character #xd800: invalid Unicode character\n  in "<unicode string>", position 2'),
    (b"\xc3", 'unacceptable character #x00c3: incomplete UTF-8 octet sequence\n  in "<byte string>", position 0'),
    (
        "- a\n- !x%c0%80 b",
        "while scanning a tag\n'utf-8' codec can't decode byte 0xc0 in position 1: invalid start byte\n"
        '  in "<unicode string>", line 2, column 3:\n    - !x%c0%80 b\n      ^',
    ),
    (
        "%FOO x\n--- a",
        'while scanning a directive\n  in "<unicode string>", line 1, column 1:\n    %FOO x\n    ^\n'
        'found unknown directive name\n  in "<unicode string>", line 1, column 5:\n    %FOO x\n        ^',
    ),
]

# Documents of what a loader knows, with values and without a fault.
DOCUMENTS = [
    "a: &x 1\nb: *x\nc: &y [*x, &z 'd', *z]\ne: *y\n",
    "base: &base {a: 1, b: 2}\nmore:\n  <<: *base\n  b: 3\nlist:\n- <<: [*base, {c: 4}]\n  d: 5\n",
    "- !!str 1\n- !!int '2'\n- ! 3\n- !!binary aGk=\n- !!set {a, b}\n- !!omap [a: 1]\n- !!pairs [a: 1, a: 2]\n- !!float 1\n",
    "- 2020-01-02\n- 2020-01-02T03:04:05Z\n- 1_000\n- 0x1f\n- 017\n- 1:30\n- .inf\n- 1e+3\n- ~\n- yes\n- No\n-\n- null\n",
    "? a\n: - b\n  - ? c\n    : d\n? [e, f]\n: {g: h, ? i : j, k}\n'l' : \"m\\tn\\u00e9\"\n",
    "a: |\n  b\n   c\n\nd: >-\n  e\n  f\n\n  g\nh: |2+\n   i\n\nj: ''\n",
    "%YAML 1.1\n%TAG ! tag:yaml.org,2002:\n---\n!str 1\n...\n--- # b\n- [a, [b, {c: d}], ]\n--- 'é'\n",
    "é: ü\n\"\\U0001F600\": &ö ö\n? *ö\n: ß\r\n𝄞: [𝄞, \u2028a]\n",
    "a: b",
    "a:\n- b\n- c\nd:\n  - e: f\n    g:\n    - h\n",
]


def can(python, code):
    """Whether a Python runs a line of code."""
    return bool(shutil.which(python)) and subprocess.run([python, "-c", code], capture_output=True).returncode == 0


def python_that_can(code):
    """A Python that runs a line of code, or None."""
    return next((python for python in (sys.executable, DEBIAN) if can(python, code)), None)


def make_room(room, name):
    """A new folder in another."""
    path = os.path.join(room, name)
    os.mkdir(path)
    return path


def lines_of(data, words):
    """The listing of an input, by the words of a row."""
    settings = main_module.settings_of(words)
    return [line for line, _ in main_module.listing(data, *settings)]


def module(words, data=b"", **more):
    """Runs a module of the package, and returns what it wrote and its status."""
    words = [sys.executable, "-m", *words]
    done = subprocess.run(words, input=data, capture_output=True, timeout=60, **{"env": ENVIRONMENT, **more})
    return done.stdout.decode(), done.returncode


def try_listings(program):
    """The listings of all vectors, also in other batches, and those of the worked rows by the command."""
    every = list(vectors())
    wrong = [(words, data) for words, data, wanted in every if lines_of(data, words) != wanted]
    for size in (1, 2, 7, 100_000):
        held.BATCH, usual = size, held.BATCH
        wrong += [(words, data) for words, data, wanted in every[::10] if lines_of(data, words) != wanted]
        held.BATCH = usual
    worked = [(words[1:], data, lines) for words, data, lines in rows() if words[0] == "scan"]
    with ThreadPoolExecutor(max_workers=os.cpu_count()) as pool:
        told = list(pool.map(lambda row: module(["bogzhami", *row[0]], row[1]), worked))
    for (words, data, wanted), (text, status) in zip(worked, told):
        listed = text.split("\n")[:-1]
        if listed != wanted or status != wanted[-1].startswith("FAULT") or lines_of(data, words) != wanted:
            wrong.append((words, data))
    if program and os.path.isfile(program):
        wrong += [row[:2] for row, (text, status) in zip(worked, told) if by_program(program, row) != (text, status)]
    print(f"python: {len(every)} inputs and {len(worked)} worked rows listed, {len(wrong)} wrong {wrong[:3] or ''}")
    return not wrong and len(every) > 20000 and len(worked) > 60


def by_program(program, row):
    done = subprocess.run([program, "scan", *row[0]], input=row[1], capture_output=True, timeout=60)
    return done.stdout.decode(), done.returncode


def in_shell(line, *words, data=b""):
    """The status of a command, which is `"$@"` in a line of a shell, and what it says on standard error."""
    done = subprocess.run(["sh", "-c", line, "sh", *words], input=data, env=ENVIRONMENT, capture_output=True, timeout=60)
    return done.returncode, done.stderr.decode()


def broken_off(end):
    """The status of the command, and what it says on standard error, if a function ends it."""
    kinds = {"stdin": subprocess.PIPE, "stdout": subprocess.PIPE, "stderr": subprocess.PIPE}
    with subprocess.Popen([sys.executable, "-m", "bogzhami"], env=ENVIRONMENT, **kinds) as program:
        last = threading.Timer(20, program.kill)
        last.start()
        end(program)
        told = program.stderr.read().decode()
        last.cancel()
        return program.wait(), told


def write_first_line(program):
    """Gives the command more than it can write at once, and returns when it has begun to write."""
    program.stdin.write(b"- a\n" * 100_000)
    program.stdin.close()
    program.stdout.readline()


def close_pipe(program):
    write_first_line(program)
    program.stdout.close()


def is_waiting(program):
    """Whether a program has read all that it was given, and waits for more."""
    left = struct.unpack("i", fcntl.ioctl(program.stdin, termios.FIONREAD, b"\0" * 4))[0]
    with open(f"/proc/{program.pid}/stat", encoding="utf-8") as text:
        return left == 0 and text.read().rpartition(")")[2].split()[0] == "S"


def interrupt_writing(program):
    write_first_line(program)
    time.sleep(0.3)  # the pipe is full then
    program.send_signal(signal.SIGINT)


def interrupt_reading(program):
    program.stdin.write(b"- a\n" * 100_000)  # more than a pipe has room for, so it is reading
    program.stdin.flush()
    for _ in range(3):
        while program.poll() is None and not is_waiting(program):
            time.sleep(0.05)
        time.sleep(0.05)
    program.send_signal(signal.SIGINT)


def try_statuses(program):
    """Exit statuses of the command, and what it says: wrong words, reads and writes that fail, closed pipes and interrupts."""
    own = [sys.executable, "-m", "bogzhami"]
    name, long = "python3 -m bogzhami: ", b"- a\n" * 10_000
    usage = "usage: python3 -m bogzhami [any|utf8|utf16le|utf16be [LIMIT]] < FILE\n"
    full = 3, f"{name}write failed: No space left on device\n"
    found = {
        "utf9": (in_shell('"$@"', *own, "utf9"), (2, f"{name}no such encoding: utf9\n{usage}")),
        "0": (in_shell('"$@"', *own, "any", "0"), (2, f"{name}no key limit: 0\n{usage}")),
        "65537": (in_shell('"$@"', *own, "any", "65537"), (2, f"{name}no key limit: 65537\n{usage}")),
        "1000000000001": (in_shell('"$@"', *own, "any", "1" + "0" * 11 + "1")[0], 2),
        "more": (in_shell('"$@"', *own, "any", "1", "b", "c"), (2, f"{name}too many words: b c\n{usage}")),
        "help": (module(["bogzhami", "--help"])[0].startswith(usage), True),
        "version": (module(["bogzhami", "--version"]), (f"bogzhami {bogzhami.__version__}\n", 0)),
        "full": (in_shell('"$@" > /dev/full', *own, data=b"a: 1"), full),
        "long": (in_shell('"$@" > /dev/full', *own, data=long), full),
        "help full": (in_shell('"$@" > /dev/full', *own, "--help"), full),
        "no output": (in_shell('"$@" >&-', *own, data=long), (3, f"{name}write failed: Bad file descriptor\n")),
        "no input": (in_shell('"$@" <&-', *own), (3, f"{name}read failed: Bad file descriptor\n")),
        "help after others": (module(["bogzhami", "any", "--help"])[0].startswith(usage), True),
        "no words": (in_shell('"$@" > /dev/full 2>&-', *own), (3, "")),
        "pipe": (broken_off(close_pipe), (3, "")),
        "writing": (broken_off(interrupt_writing), (130, "")),
        "reading": (broken_off(interrupt_reading), (130, "")),
    }
    if program and os.path.isfile(program):
        scan = [program, "scan", "any"]
        for key, line, words, data in (("full", '"$@" > /dev/full', scan, b"a: 1"), ("utf9", '"$@"', [program, "scan", "utf9"], b"")):
            found[f"{key} as yamltok"] = in_shell(line, *words, data=data)[0], found[key][1][0]
    # Python itself refuses a folder, before the package begins
    status, told = in_shell('"$@" < /', *own)
    found["a folder"] = status in (1, 3) and "is a directory" in told.lower(), True
    wrong = {key: told for key, (told, wanted) in found.items() if told != wanted}
    print(f"python: {len(found)} exit statuses, {len(wrong)} wrong {wrong or ''}")
    return not wrong


def try_faults():
    """Faults, after the tokens before them."""
    wrong = []
    for data, message, kind, count in FAULTS:
        tokens = bogzhami.scan(data)
        found = list(itertools.islice(tokens, count))
        try:
            next(tokens)
            wrong.append((data, "no fault"))
        except bogzhami.Fault as fault:
            is_reader = kind == "reader"
            line, column = (int(number) - 1 for number in re.match(r"(\d+):(\d+)", message).groups())
            told = str(fault), fault.kind, len(found), (fault.line, fault.column), fault.mark is None, fault.offset is not None
            copied = str(pickle.loads(pickle.dumps(fault)))
            if (*told, copied) != (message, kind, count, (line, column), is_reader, is_reader, message):
                wrong.append((data, told))
    print(f"python: {len(FAULTS)} faults, {len(wrong)} wrong {wrong or ''}")
    return not wrong


def refuses(kind, call, *arguments, **settings):
    try:
        call(*arguments, **settings)
    except kind:
        return True
    return False


class Slow(io.RawIOBase):
    """A file that gives a few characters at a time."""

    def __init__(self, data):
        self.data, self.name = data, "slow"

    def read(self, size):
        data, self.data = self.data[: min(size, 3)], self.data[min(size, 3) :]
        return data


class Failing(io.RawIOBase):
    """A file that fails at its second read."""

    def __init__(self):
        self.count = 0

    def read(self, size):
        self.count += 1
        if self.count == 2:
            raise OSError("no more")
        return b"a: "


def says(kind, words, call, *arguments, **settings):
    """Whether a call raises an exception of a kind that says just these words."""
    try:
        call(*arguments, **settings)
    except kind as reason:
        return str(reason) == words
    return False


def wrong_settings():
    """Which wrong settings and inputs are not refused in the words that say what is wanted; nothing of a file is read then."""
    encodings = "one of Encoding.ANY, Encoding.UTF8, Encoding.UTF16LE, Encoding.UTF16BE is wanted"
    limits, inputs = "a whole number from 1 to 65536 is wanted", "str, bytes, what has a buffer, an open file, or a path is wanted"
    told = []
    for value in (9, -1, 4, "utf8", None, 1.5):
        for data in ("a", b"a"):
            told.append((data, {"encoding": value}, ValueError, f"encoding {value!r}: {encodings}"))
    for value in (0, -1, 65537, 1 << 64, "9", None, 2.5):
        told.append(("a", {"key_limit": value}, ValueError, f"key limit {value!r}: {limits}"))
    for value, name in ((None, "NoneType"), (5, "int"), ([1], "list"), ({}, "dict")):
        told.append((value, {}, TypeError, f"{name} is given: {inputs}"))
    opened = io.BytesIO(b"a: 1")
    told += [(opened, {"encoding": 9}, ValueError, f"encoding 9: {encodings}")]
    told += [(opened, {"key_limit": 0}, ValueError, f"key limit 0: {limits}")]
    wrong = [row for row in told if not says(row[2], row[3], bogzhami.scan, row[0], **row[1])]
    return wrong + ([] if opened.read() == b"a: 1" else ["read"])


def try_paths(room):
    """Paths in the place of what their files have: with its encoding, and what is said if they can not be read."""
    path, utf16 = pathlib.Path(room, "é.yaml"), pathlib.Path(room, "utf-16.yaml")
    path.write_bytes("- é\r\n- b".encode())
    utf16.write_bytes("- é".encode("utf-16-le"))
    entries = {entry.name: entry for entry in os.scandir(room)}
    checks = [
        list(bogzhami.scan(path)) == list(bogzhami.scan(path.read_bytes())),
        list(bogzhami.scan(entries["é.yaml"])) == list(bogzhami.scan(path)),
        [token.value for token in bogzhami.scan(utf16, bogzhami.Encoding.UTF16LE) if token.value] == ["é"],
        refuses(FileNotFoundError, bogzhami.scan, pathlib.Path(room, "none.yaml")),
        refuses(IsADirectoryError, bogzhami.scan, pathlib.Path(room)),
        [token.value for token in bogzhami.scan(str(path)) if token.value] == [str(path)],
    ]
    print(f"python: paths, {checks.count(False)} of {len(checks)} checks wrong {[n for n, good in enumerate(checks) if not good] or ''}")
    return all(checks)


def try_settings():
    """Kinds of input, settings, and texts that are not UTF-8."""
    utf16, given = bogzhami.Encoding.UTF16LE, bytearray(b"a: 1")
    tokens = bogzhami.scan(given)
    next(tokens)
    given[:] = b"@@@@"
    values = {
        "nothing": [token.type.name for data in (b"", "", memoryview(b"")) for token in bogzhami.scan(data)],
        "copied": [token.value for token in tokens if token.value],
        "utf-16": [token.value for token in bogzhami.scan("- é".encode("utf-16-le"), encoding=utf16) if token.value],
        "text": [token.value for token in bogzhami.scan("\ufeff- é", encoding=utf16) if token.value],
        "tag": [token.value for token in bogzhami.scan("!a%c0%80 b") if token.value],
        "prefix": [token.value for token in bogzhami.scan("%TAG ! a%c0%80\n--- b") if token.value],
        "zero": [token.value for token in bogzhami.scan("!a%00b b") if token.value],
        "style": [token.style for token in bogzhami.scan("- a\n- |\n b\n") if token.style],
        "limit": len(list(bogzhami.scan("'ab': 1", key_limit=4))),
        "number": len(list(bogzhami.scan(b"'ab': 1", encoding=1, key_limit=4))),
        "files": [token.value for data in ("- é", "- é".encode()) for token in bogzhami.scan(Slow(data)) if token.value],
        "encoded": [token.value for token in bogzhami.scan(io.BytesIO(b"a\0"), encoding=utf16) if token.value],
        "text file": [token.value for token in bogzhami.scan(io.StringIO("é"), encoding=utf16) if token.value],
    }
    wanted = {
        "nothing": ["STREAM_START", "STREAM_END"] * 3,
        "copied": ["a", "1"],
        "utf-16": ["é"],
        "text": ["é"],
        "tag": [b"a\xc0\x80", "b"],
        "prefix": [b"a\xc0\x80", "b"],
        "zero": ["a\0b", "b"],
        "style": [bogzhami.ScalarStyle.PLAIN, bogzhami.ScalarStyle.LITERAL],
        "limit": 8,
        "number": 8,
        "files": ["é"] * 2,
        "encoded": ["a"],
        "text file": ["é"],
    }
    opened = io.BytesIO(b"a: 1")
    list(bogzhami.scan(opened))
    refused = [
        not opened.closed and not opened.read(),
        refuses(OSError, list, bogzhami.scan(Failing())),
        refuses(bogzhami.Fault, list, bogzhami.scan("'abc': 1", key_limit=4)),
    ]
    wrong = {name: value for name, value in values.items() if value != wanted[name]}
    told = wrong_settings()
    count = len(wrong) + refused.count(False) + len(told)
    print(f"python: {len(values)} kinds of input and {len(refused)} refusals, {count} wrong {wrong or ''} {told or ''}")
    return not count


class Counting:
    """The library, with a count of its calls by name and status."""

    def __init__(self, library):
        self.library, self.calls = library, collections.Counter()

    def __getattr__(self, name):
        def call(*words):
            status = getattr(self.library, name)(*words)
            self.calls[name.replace("bogzhami_", ""), status] += 1
            return status

        return call


def try_ends():
    """A scanner that is given up has not scanned the rest and is closed, and the rooms are used again."""
    held.LIBRARY, usual = Counting(held.LIBRARY), held.LIBRARY
    calls, text = held.LIBRARY.calls, "- a\n" * 100_000
    tokens = bogzhami.scan(text)
    counts = [len(list(itertools.islice(tokens, 10))), calls["next", 0], calls["close", 0]]
    tokens.close()
    counts += [len(list(tokens)), calls["close", 0]]
    bogzhami.scan(text)
    gc.collect()
    counts += [calls["close", 0], len(list(bogzhami.scan("a"))), calls["close", 0], calls["open", 0]]
    held.LIBRARY = usual
    tracemalloc.start()
    counts.append(sum(1 for _ in bogzhami.scan(text.encode())))
    peak = tracemalloc.get_traced_memory()[1] - len(text)
    tracemalloc.stop()
    good = counts == [10, 1, 0, 0, 1, 2, 3, 3, 3, 200_004] and peak < 200_000
    print(f"python: scanners that were given up: {'freed' if good else counts}; {peak} bytes besides an input of {len(text)}")
    return good


class Refusing:
    """The library, that is refused memory when it opens a scanner, or in the second batch of tokens."""

    def __init__(self, library, in_open):
        self.library, self.in_open, self.count = library, in_open, 0

    def __getattr__(self, name):
        return getattr(self.library, name)

    def bogzhami_open(self, *words):
        return 3 if self.in_open else self.library.bogzhami_open(*words)

    def bogzhami_next(self, *words):
        self.count += 1
        if self.count != 2:
            return self.library.bogzhami_next(*words)
        answer = words[-1]._obj
        answer.token_count = answer.text_len = answer.problem_len = answer.context_len = 0
        answer.error = 1
        return 1


def try_memory():
    """Memory that is refused, as the library tells it."""
    usual, found = held.LIBRARY, []
    for in_open in (True, False):
        held.LIBRARY = Refusing(usual, in_open)
        try:
            for token in bogzhami.scan("- a\n" * 1000):
                found.append(token)
        except MemoryError:
            found.append("refused")
    held.LIBRARY = Refusing(usual, True)
    listed = list(main_module.listing(b"a", bogzhami.Encoding.ANY, 1024))
    held.LIBRARY = usual
    good = found[0] == found[-1] == "refused" and len(found) == held.BATCH + 2 and listed == [("FAULT memory", 1)]
    print(f"python: memory refused at once and after {len(found) - 2} tokens: {'as it is' if good else 'wrong'}")
    return good


def try_threads():
    """Threads that scan at once, and threads that use one scanner."""
    texts = [realistic(30_000, seed).encode() for seed in range(8)]
    with ThreadPoolExecutor(max_workers=8) as pool:
        same = list(pool.map(lambda text: list(bogzhami.scan(text)), texts)) == [list(bogzhami.scan(text)) for text in texts]
    shared, taken = held.Held(texts[0], 0, 1024), []

    def take():
        while isinstance(batch := shared.next(), held.Batch):
            taken.append(batch)

    threads = [threading.Thread(target=take) for _ in range(8)]
    for thread in threads:
        thread.start()
    for thread in threads:
        thread.join()
    tokens = sorted(token for batch in taken for token in bogzhami._tokens_of(batch))
    good = same and tokens == sorted(bogzhami.scan(texts[0]))
    print(f"python: {len(texts)} threads at once, and on one scanner: {'the same tokens' if good else 'wrong'}")
    return good


def try_places(room):
    """The library beside the module, by its name, and where there is none."""
    copy, libraries = os.path.join(room, "bogzhami"), os.path.join(room, "libraries")
    shutil.copytree(os.path.join(FOLDER, "bogzhami"), copy, ignore=shutil.ignore_patterns("__pycache__"))
    os.mkdir(libraries)
    environment = {**ENVIRONMENT, "PYTHONPATH": room}
    del environment["BOGZHAMI_LIBRARY"]
    wanted = "".join(line + "\n" for line in lines_of(b"a: 1", ["any"])), 0
    none, told = without_library(["bogzhami"], environment)
    shutil.copy(LIBRARY, os.path.join(libraries, "libbogzhami.so.1"))
    by_name = module(["bogzhami"], b"a: 1", env={**environment, "LD_LIBRARY_PATH": libraries})
    shutil.copy(LIBRARY, os.path.join(copy, "libbogzhami.so"))
    beside = module(["bogzhami"], b"a: 1", env=environment)
    good = beside == by_name == wanted and (none == 0 or f"no libbogzhami in {copy} or among the system's" in told)
    found = "found" if good else "wrong"
    print(f"python: the library beside the module and by its name: {found}; without one: status {none}")
    return good


def without_library(words, environment):
    """The status of a module, or of a line of Python, and what it says on standard error, or else on standard output."""
    words = words if words[0] == "-c" else ["-m", *words]
    done = subprocess.run([sys.executable, *words], input=b"a: 1", env=environment, capture_output=True, timeout=60)
    return done.returncode, (done.stderr or done.stdout).decode()


def try_no_library():
    """Where there is no library: help, version and wrong words need none, and all else says in a line what it needs. The
    package can be imported, and its first call raises ImportError."""
    environment = {**ENVIRONMENT, "BOGZHAMI_LIBRARY": "/dev/null/none"}
    name = "python3 -m bogzhami: "
    none = r"no libbogzhami by the name that BOGZHAMI_LIBRARY has: .* ffi/build makes it, .* \(/dev/null/none: .*\)\n"
    tried = [
        (["bogzhami", "--help"], 0, r"usage: (?s:.*)"),
        (["bogzhami", "--version"], 0, rf"bogzhami {bogzhami.__version__}\n"),
        (["bogzhami", "utf9"], 2, rf"{name}no such encoding: utf9\nusage: .*\n"),
        (["bogzhami"], 3, name + none),
        (["-c", "import bogzhami; bogzhami.scan('a')"], 1, rf"Traceback (?s:.*)\nImportError: {none}"),
    ]
    wrong = []
    for words, status, wanted in tried:
        found, told = without_library(words, environment)
        if found != status or not re.fullmatch(wanted, told) or "Exception ignored" in told:
            wrong.append((words, found, told[-600:]))
    print(f"python: {len(tried)} calls without a library, {len(wrong)} wrong {wrong or ''}")
    return not wrong


def try_installed(room):
    """The package of a checkout, with no variable for the library, and what pip makes of it, with nothing fetched."""
    top = copy_of_checkout(room)
    wrong, told = wrong_in_checkout(sys.executable, top), []
    for number, python in enumerate(dict.fromkeys(filter(os.path.exists, (sys.executable, DEBIAN)))):
        found = wrong_with_pip(python, top, make_room(room, f"pip{number}"))
        told.append(f"pip of {python}: {'skipped, it makes no virtual environment' if found is None else found or 'installed'}")
        wrong += found or []
    with open(os.path.join(FOLDER, "LICENSE"), "rb") as ours, open(os.path.join(TOP, "LICENSE"), "rb") as other:
        wrong += ["LICENSE"] if ours.read() != other.read() else []
    wrong += wrong_stub(bogzhami)
    print(f"python: a checkout with no variable; {'; '.join(told)}; {len(wrong)} wrong {wrong or ''}")
    return not wrong


def try_example():
    """The programs of README.md, with what it says that they print."""
    with open(os.path.join(FOLDER, "README.md"), encoding="utf-8") as text:
        blocks = re.findall(r"```python\n(.*?)```\s+prints\s+```\n(.*?)```", text.read(), re.S)
    python = python_that_can(C_LOADER) or sys.executable
    wrong = []
    for code, wanted in blocks:
        if "yaml" in code.split() and not can(python, C_LOADER):
            continue
        done = subprocess.run([python, "-c", code], env=ENVIRONMENT, capture_output=True, text=True, timeout=60)
        if done.stdout != wanted:
            wrong.append((code, done.stdout, done.stderr))
    print(f"python: {len(blocks)} programs of README.md, {len(wrong)} wrong {wrong or ''}")
    return not wrong and len(blocks) >= 6


def every_input():
    """Each input of the repository's texts and vectors that PyYAML can be given: bytes, and text."""
    seen = set()
    written = [(0, text.encode()) for text in DOCUMENTS]
    for setting, data in [*written, *yaml_files(), *long_texts(), *batch_ends(), *settings_and_inputs(), *more_vectors()]:
        kinds = [data] if setting == 0 else []
        try:
            kinds.append(data.decode(CODECS[setting] or "utf-8"))
        except UnicodeDecodeError:
            pass
        for given in kinds:
            if given not in seen:
                seen.add(given)
                yield given


def more_vectors():
    """Setting and input of each row of decode.txt, and the texts of lexemes.txt."""
    settings = ["any", "utf8", "utf16le", "utf16be"]
    with open(os.path.join(HERE, "vectors", "decode.txt"), encoding="ascii") as lines:
        for words, data, _ in (line.split("\t") for line in lines):
            yield settings.index(words.split(" ")[1]), bytes.fromhex(data.strip("-"))
    with open(os.path.join(HERE, "lexemes.txt"), encoding="ascii") as lines:
        for line in lines:
            yield 0, bytes.fromhex(line.split("\t")[0].split(" ")[-1].strip("-"))


def try_tokens(every):
    """Tokens and marks beside those of PyYAML's C loader."""
    seen, wrong = collections.Counter(), []
    for given in every:
        names = loading.difference(given, pyyaml.BaseLoader)
        seen.update(names or ["same"])
        if names == ["wrong"]:
            wrong.append(given[:200])
    found = ", ".join(f"{seen[name]} {name}" for name in ["same", *loading.DIFFERENCES])
    print(f"python: tokens of {len(every)} inputs beside PyYAML's C loader: {found}; {len(wrong)} wrong {wrong[:3] or ''}")
    return not wrong and all(seen[name] for name in loading.DIFFERENCES) and seen["same"] > len(every) // 2


def shown(given, loader):
    """Index, pointer and what stands there of each mark, and what the error shows of its line."""
    found = []
    try:
        for token in yaml.scan(given, Loader=loader):
            marks = token.start_mark, token.end_mark
            found += [(mark.name, mark.index, mark.pointer, mark.buffer[mark.pointer :][:9]) for mark in marks]
    except yaml.MarkedYAMLError as error:
        found.append(error.problem_mark.get_snippet())
    return found


def try_own_scanner(every):
    """Marks beside those of PyYAML's own scanner: all parts of them where tokens are the same, and ends of open last lines."""
    seen, wrong = collections.Counter(), []
    for given in every:
        text = loading.text_of(given)
        if "\ufeff" in text or len(text) != len(given):  # which it counts as a character, and not as a column
            continue
        ours, own = loading.tokens(given, pyyaml.BaseLoader), loading.tokens(given, yaml.BaseLoader)
        kinds = [one[0] for one in ours]
        if ours == own:
            seen["same"] += 1
            if shown(given, pyyaml.BaseLoader) != shown(given, yaml.BaseLoader):
                wrong.append(given)
        elif kinds == [one[0] for one in own]:
            seen["others"] += 1
        if kinds == [one[0] for one in own] and kinds[-1] == "StreamEndToken" and loading.last_place(text)[2]:
            seen["open ends"] += 1
            if [one for one in zip(ours, own) if one[0][0] in ("BlockEndToken", "StreamEndToken") and one[0] != one[1]]:
                wrong.append(given)
    found = ", ".join(f"{count} {name}" for name, count in seen.items())
    print(f"python: tokens beside PyYAML's own scanner: {found}; {len(wrong)} wrong {wrong[:3] or ''}")
    return not wrong and seen["same"] > 1000 and seen["open ends"] > 200


def node_parts(node):
    """A node as a tuple: tag, marks, style, and value."""
    marks = loading.place(node.start_mark), loading.place(node.end_mark)
    if isinstance(node, yaml.ScalarNode):
        return node.tag, marks, node.style, node.value
    pairs = node.value if isinstance(node, yaml.MappingNode) else [(one,) for one in node.value]
    return node.tag, marks, node.flow_style, [list(map(node_parts, pair)) for pair in pairs]


def composed(given, loader):
    try:
        return [repr(node_parts(node)) for node in yaml.compose_all(given, Loader=loader)]
    except (yaml.YAMLError, RecursionError) as error:
        return [loading.error_parts(error)]


def long_way():
    """The loader without short cuts, under PyYAML's own parser and composer."""
    from yaml.composer import Composer
    from yaml.constructor import SafeConstructor
    from yaml.parser import Parser
    from yaml.resolver import Resolver

    class LongWay(pyyaml.Scanning, Parser, Composer, SafeConstructor, Resolver):
        def __init__(self, stream):
            for part in (Parser, Composer, SafeConstructor, Resolver):
                part.__init__(self)
            pyyaml.Scanning.__init__(self, stream)

    return LongWay


def try_events(every):
    """Events and nodes beside those of PyYAML's own parser and composer over the same scanner, with no short cut."""
    plain, wrong, count = long_way(), [], collections.Counter()
    for given in every:
        events = loading.listed(yaml.parse, given, plain)
        count["events"] += len(events)
        if loading.listed(yaml.parse, given, pyyaml.SafeLoader) != events:
            wrong.append(given)
        nodes = composed(given, plain)
        count["documents"] += len(nodes)
        if composed(given, pyyaml.SafeLoader) != nodes:
            wrong.append(given)
    print(f"python: {count['events']} events and {count['documents']} documents the long way, {len(wrong)} wrong {wrong[:3] or ''}")
    return not wrong and count["events"] > 5000


def loaded(given, loader):
    """The documents in words, and the class of the error that ends them if there is one."""
    found = []
    try:
        found.extend(map(repr, yaml.load_all(given, Loader=loader)))
    except (yaml.YAMLError, ValueError, TypeError) as error:
        return type(error).__name__
    return found


def try_values(every):
    """What is loaded, where the C loader has the same tokens: the same as by it, or by PyYAML's own loader."""
    pairs = [(pyyaml.BaseLoader, yaml.CBaseLoader, yaml.BaseLoader), (pyyaml.SafeLoader, yaml.CSafeLoader, yaml.SafeLoader)]
    pairs.append((pyyaml.FullLoader, yaml.CFullLoader, yaml.FullLoader))
    pairs.append((pyyaml.Loader, yaml.CLoader, yaml.Loader))
    pairs.append((pyyaml.UnsafeLoader, yaml.CUnsafeLoader, yaml.UnsafeLoader))
    pairs.append((pyyaml.loader_like(yaml.SafeLoader), yaml.CSafeLoader, yaml.SafeLoader))
    seen, wrong = collections.Counter(), []
    for number, given in enumerate(every):
        if set(loading.difference(given, pyyaml.BaseLoader)) - {"open end", "spelling"}:
            continue
        for loader, c_loader, own_loader in pairs if number % 4 == 0 else pairs[1:2]:
            value = loaded(given, loader)
            if value == loaded(given, c_loader):
                seen["C"] += 1
            elif value == loaded(given, own_loader):
                seen["own"] += 1
            elif any(one[0] == "TagToken" and one[3]["value"] == (None, "!") for one in loading.tokens(given, loader)):
                seen["!"] += 1  # of an empty scalar with this tag libyaml's parser makes "", and PyYAML's None
            else:
                wrong.append(given)
    found = f"{seen['C']} as by PyYAML's C loaders, {seen['own']} as by its own alone, {seen['!']} with a tag `!` as by neither"
    print(f"python: values: {found}, {len(wrong)} wrong {wrong[:3] or ''}")
    return not wrong and seen["C"] > 3000 and seen["own"] + seen["!"] < seen["C"] // 100


def told_by(given, loader):
    try:
        list(yaml.load_all(given, Loader=loader))
    except yaml.YAMLError as error:
        return str(error)
    return None


def with_path(kind):
    """A loader with a resolver that looks at paths, and a constructor of its own."""

    class WithPath(kind):
        pass

    WithPath.add_path_resolver("!own", ["a", 0], str)
    WithPath.add_constructor("!own", lambda loader, node: node.value)
    return WithPath


def own_loaders():
    """A loader of one's own, and one that was made of it, before its last constructor is added."""

    class Own(yaml.SafeLoader):
        def __init__(self, stream, more=0):
            self.more, self.of = more, getattr(stream, "name", None)
            super().__init__(stream)

        def construct_mapping(self, node, deep=False):
            return {"more": self.more, "of": self.of, **super().construct_mapping(node, deep)}

        def compose_node(self, parent, index):
            node = super().compose_node(parent, index)
            return yaml.SequenceNode("tag:yaml.org,2002:seq", []) if node.tag == "!empty" else node

    Own.add_implicit_resolver("!twice", re.compile(r"\d+\*2$"), list("0123456789"))
    like = pyyaml.loader_like(Own)
    Own.add_constructor("!twice", lambda loader, node: 2 * int(node.value[:-2]))
    return Own, like


def try_likes():
    """Constructors that are added to `yaml.SafeLoader` and to loaders of one's own: who knows them."""
    own, like = own_loaders()
    text = "a: 4*2\nb: {c: !empty [d]}\n"
    inputs = [text, text.encode(), text.encode("utf-16"), Slow(text), Slow(text.encode())]
    again = [text, text.encode(), text.encode("utf-16"), Slow(text), Slow(text.encode())]
    loaded_by = [[yaml.load(given, Loader=loader) for given in all_of] for loader, all_of in ((own, inputs), (like, again))]

    class Changed(yaml.SafeLoader):
        pass

    Changed.add_constructor("!x", lambda loader, node: node.start_mark.line)
    both, before = pyyaml.loader_like(Changed), yaml.SafeLoader.yaml_constructors.keys()
    yaml.SafeLoader.add_constructor("!added", lambda loader, node: "added")
    added = told_by("!added a", pyyaml.loader_like(yaml.SafeLoader)), told_by("!added a", pyyaml.SafeLoader) is None
    del yaml.SafeLoader.yaml_constructors["!added"]
    tuples = [yaml.load("!!python/tuple [a]", Loader=loader) for loader in (pyyaml.FullLoader, pyyaml.UnsafeLoader, pyyaml.Loader)]
    calls = [loaded("!!python/object/apply:len [[a]]", loader) for loader in (pyyaml.UnsafeLoader, pyyaml.Loader, pyyaml.FullLoader)]
    checks = [
        loaded_by[0] == loaded_by[1] and loaded_by[1][3]["of"] == "slow" and loaded_by[1][0]["a"] == 8,
        like("a", more=3).more == like("a", 3).more == 3 and like.__name__ == "Own" and issubclass(like, own),
        yaml.load("\n!x a", Loader=both) == 1 and told_by("a: b: c", both) == told_by("a: b: c", pyyaml.SafeLoader),
        added == (None, False) and "!added" not in before,
        tuples == [("a",)] * 3 and calls == [["1"], ["1"], "ConstructorError"],
        all(refuses(TypeError, pyyaml.loader_like, kind) for kind in (yaml.CSafeLoader, pyyaml.SafeLoader, str, None)),
        [listed_version(version) for version in ("1.0", "1.3", "1.10")] == [["same", "ParserError"]] * 3,
        [listed_version(version) for version in ("1.1", "1.2")] == [["same", ["'a'"]]] * 2,
        object_of("!one a: 1") == {"a": 1},
    ]
    wrong = [number for number, good in enumerate(checks) if not good] + wrong_stub(pyyaml)
    print(f"python: loaders like others, {len(wrong)} of {len(checks)} checks wrong {wrong or ''}")
    return not wrong


def object_of(text):
    """What a class of objects, that names its loader, has of a text."""

    class Loader(pyyaml.SafeLoader):
        pass

    class One(yaml.YAMLObject):
        yaml_tag, yaml_loader = "!one", [Loader]

    made = yaml.load(text.replace(" ", "\n", 1), Loader=Loader)
    return vars(made) if isinstance(made, One) else made


def listed_version(version):
    """What is made of a document of a version: whether it is as by PyYAML's own loader, and what its C loader makes of it."""
    ours, own, their = (loaded(f"%YAML {version}\n--- a", kind) for kind in (pyyaml.SafeLoader, yaml.SafeLoader, yaml.CSafeLoader))
    return ["same" if ours == own == ["'a'"] else "other", their]


def try_errors():
    """Exceptions in words, files, an error that is asked for again, tokens before an error, and a stream's start."""
    wrong = [(given, told_by(given, pyyaml.SafeLoader)) for given, text in ERRORS if told_by(given, pyyaml.SafeLoader) != text]
    loader = pyyaml.SafeLoader("- a\n- @")
    before = [type(loader.get_token()).__name__ for _ in range(5)]
    again = [refuses(yaml.scanner.ScannerError, loader.get_token) for _ in range(3)]
    loader.dispose()
    text = "- é\n- b"
    files = [yaml.load(Slow(data), Loader=pyyaml.SafeLoader) for data in (text, text.encode(), text.encode("utf-16"))]
    inputs = ["a", b"a", b"\xff\xfea\0", b"\xfe\xff\0a", Slow("a"), Slow(b"a")]
    starts = [next(yaml.scan(given, Loader=pyyaml.BaseLoader)).encoding for given in inputs]
    told = told_by(Slow("a: b: c"), pyyaml.SafeLoader)
    mark = next(yaml.scan("é: a", Loader=pyyaml.BaseLoader)).start_mark
    mark.name = "other"
    checks = [
        before == ["StreamStartToken", "BlockSequenceStartToken", "BlockEntryToken", "ScalarToken", "BlockEntryToken"],
        all(again) and loader.get_token() is None and not loader.check_token(),
        files == [["é", "b"]] * 3,
        starts == [None, "utf-8", "utf-16-le", "utf-16-be", None, "utf-8"],
        str(pickle.loads(pickle.dumps(mark))) == str(mark),
        told == 'mapping values are not allowed in this context\n  in "slow", line 1, column 5',
        mark.name == "other" and isinstance(mark, yaml.Mark) and str(mark).startswith('  in "other", line 1, column 1:'),
        [yaml.load(given, Loader=pyyaml.SafeLoader) for given in ("", b"", "\ufeff")] == [None] * 3,
        [type(one).__name__ for one in yaml.scan("", Loader=pyyaml.SafeLoader)] == ["StreamStartToken", "StreamEndToken"],
        [type(one).__name__ for one in yaml.scan("%FOO x\n--- a", Loader=yaml.SafeLoader)][1] == "DirectiveToken",
        composed("a: [b, {c: d}]", with_path(pyyaml.SafeLoader)) == composed("a: [b, {c: d}]", with_path(yaml.SafeLoader)),
    ]
    found = f"{len(wrong)} wrong {wrong or ''}; {checks.count(False)} of {len(checks)} other checks wrong"
    print(f"python: {len(ERRORS)} exceptions of PyYAML, {found}")
    return not wrong and all(checks)


def places_of(messages):
    """The messages, without the words of a syntax error."""
    return [one[:3] if len(one) == 4 and one[2] is None else one for one in messages]


def try_yamllint(every, room):
    """yamllint's messages where both scanners give the same tokens, and its program on a file."""
    python = python_that_can(YAMLLINT)
    if python is None:
        print("python: yamllint skipped: there is none")
        return True
    texts = [given for given in every if isinstance(given, str) and len(given) < 100_000]
    texts = texts[:40] + texts[40::8]
    asked = b"".join(b"%d\n%s" % (len(text.encode()), text.encode()) for text in texts)
    words = [python, os.path.join(HERE, "lib", "linting.py"), FOLDER]
    told = subprocess.run(words, input=asked, capture_output=True, check=True, env=ENVIRONMENT, timeout=600).stdout
    answers = [json.loads(line) for line in told.splitlines()]
    same = sum(own == ours for own, ours, _ in answers)
    words = sum(own != ours and places_of(own) == places_of(ours) for own, ours, _ in answers)
    wrong = [text for text, (own, ours, is_same) in zip(texts, answers) if is_same and own != ours]
    path = os.path.join(room, "lint.yaml")
    with open(path, "w", encoding="utf-8") as out:
        out.write("a:  1\nb: [é,2 ] #c\n\n\n\nb: 'd'   ")
    commands = [[python, "-m", name, "-f", "parsable", path] for name in ("yamllint", "bogzhami.yamllint")]
    runs = [subprocess.run(words, env=ENVIRONMENT, capture_output=True, text=True, timeout=60) for words in commands]
    is_same = (runs[0].stdout, runs[0].returncode) == (runs[1].stdout, runs[1].returncode) and runs[0].stdout.count("\n") > 6
    without = {**ENVIRONMENT, "BOGZHAMI_LIBRARY": "/dev/null/none"}
    none = subprocess.run(commands[1], env=without, capture_output=True, text=True, timeout=60)
    is_told = none.returncode == 1 and re.fullmatch("bogzhami.yamllint: no libbogzhami .*\n", none.stderr + none.stdout)
    same_tokens = sum(one[2] for one in answers)
    found = f"{same} the same messages, {words} other words, {same_tokens} the same tokens"
    print(f"python: yamllint on {len(texts)} texts: {found}, {len(wrong)} wrong {wrong[:3] or ''}")
    return not wrong and is_same and is_told and len(answers) == len(texts) and same_tokens > 500


def try_no_yamllint():
    """A Python without yamllint: what is said names the packages that are needed. With -S it finds none."""
    done = subprocess.run([sys.executable, "-S", "-m", "bogzhami.yamllint", "x"], env=ENVIRONMENT, capture_output=True, text=True, timeout=60)
    is_told = "Traceback" not in done.stderr and "Debian: yamllint" in done.stderr
    print(f"python: yamllint that is not there{'' if is_told else f', WRONG: {done.stderr[-300:]}'}")
    return is_told and done.returncode == 1


def try_pyyaml():
    if not can(sys.executable, C_LOADER):
        print("python: PyYAML skipped: there is none with its C loader")
        return True
    global loading, pyyaml, yaml
    import loading
    import yaml
    from bogzhami import pyyaml

    every = list(every_input())
    some = every[:100] + every[100::6]
    return all([try_tokens(every), try_own_scanner(some), try_events(some), try_values(some), try_errors(), try_likes()])


def main():
    global bogzhami, feeding, held, main_module
    # A program that a script starts in the background ignores interrupts, and so would those that are started here.
    signal.signal(signal.SIGINT, signal.default_int_handler)
    if shutil.which("cc") is None:
        print("python: skipped: no C compiler")
        return 0
    build_library()
    if not can(sys.executable, C_LOADER) and can(DEBIAN, C_LOADER):
        return subprocess.call([DEBIAN, __file__, *sys.argv[1:]], env={**os.environ, "LIBRARY_IS_BUILT": "1"})
    os.environ["BOGZHAMI_LIBRARY"] = LIBRARY
    import bogzhami
    import bogzhami.__main__ as main_module
    import feeding
    from bogzhami import held

    with tempfile.TemporaryDirectory() as room:
        good = [
            try_listings(sys.argv[1] if len(sys.argv) > 1 else None),
            try_statuses(sys.argv[1] if len(sys.argv) > 1 else None),
            try_faults(),
            feeding.try_feeding(FAULTS),
            try_settings(),
            try_paths(make_room(room, "paths")),
            try_ends(),
            try_memory(),
            try_threads(),
            try_places(room),
            try_no_library(),
            try_installed(room),
            try_example(),
            try_pyyaml(),
            try_no_yamllint(),
            try_yamllint(list(every_input()), room),
        ]
    return 0 if all(good) else 1


if __name__ == "__main__":
    from lib.usage import answer_questions

    answer_questions()
    sys.exit(main())
