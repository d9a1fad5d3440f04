"""The worked rows of vectors/rows.txt and others, and the answers of a session to calls on one, with and without memory."""

import os
import subprocess
import threading

from deep_texts import run_of

HERE = os.path.dirname(os.path.dirname(os.path.abspath(__file__)))
MEMORY = "FAULT memory"
IDLE = {"s": "NO-TOKEN", "p": "PEEK NO-TOKEN", "k": "SKIP NOTHING"}

# Worked rows of which the listing does not show the answer: an input, a key limit, calls, and how many steps are queued after
# each call.
QUEUES = [
    (b"[" * 1026, 1024, "sp", [0, 1025]),
    (b"[" * 6, 4, "sp", [0, 5]),
    (b"&a b: c", 1024, "spsss", [0, 3, 3, 3, 2]),
]
# Scans of the inputs of those worked rows that decode or make calls, where no other row scans them: the encoding that is set,
# the input, and the lines.
OTHER_SCANS = [
    ("any", b"[a]", "STREAM-START 0:0:0 0:0:0 UTF8 / FLOW-SEQUENCE-START 0:0:0 1:0:1 / SCALAR 1:0:1 2:0:2 plain 61 / "
     "FLOW-SEQUENCE-END 2:0:2 3:0:3 / STREAM-END 3:1:0 3:1:0"),
    ("any", b"a: b: c", "STREAM-START 0:0:0 0:0:0 UTF8 / BLOCK-MAPPING-START 0:0:0 0:0:0 / KEY 0:0:0 0:0:0 / "
     "SCALAR 0:0:0 1:0:1 plain 61 / VALUE 1:0:1 2:0:2 / SCALAR 3:0:3 4:0:4 plain 62 / "
     "FAULT scanner 4:0:4 4:0:4 -; mapping values are not allowed in this context"),
    ("any", b"anything: [", "STREAM-START 0:0:0 0:0:0 UTF8 / BLOCK-MAPPING-START 0:0:0 0:0:0 / KEY 0:0:0 0:0:0 / "
     "SCALAR 0:0:0 8:0:8 plain 616e797468696e67 / VALUE 8:0:8 9:0:9 / FLOW-SEQUENCE-START 10:0:10 11:0:11 / "
     "STREAM-END 11:1:0 11:1:0"),
    ("any", b"\xe2\x80\xa8", "STREAM-START 0:0:0 0:0:0 UTF8 / STREAM-END 3:1:0 3:1:0"),
    ("any", b"\xef\xbb\xbfa", "STREAM-START 0:0:0 0:0:0 UTF8 / SCALAR 0:0:0 1:0:1 plain 61 / STREAM-END 1:1:0 1:1:0"),
    ("utf8", b"\xef\xbb\xbfa", "STREAM-START 0:0:0 0:0:0 UTF8 / SCALAR 3:0:1 4:0:2 plain 61 / STREAM-END 4:1:0 4:1:0"),
    ("any", b"\xef\xbb\xbf\xff", "FAULT reader 3 255 invalid leading UTF-8 octet"),
    ("any", b"\xe0\x80\x80", "FAULT reader 0 -1 invalid length of a UTF-8 sequence"),
    ("any", b"\xf4\x90\x80\x80", "FAULT reader 0 1114112 invalid Unicode character"),
    ("any", b"\xc2\x80", "FAULT reader 0 128 control characters are not allowed"),
    ("any", b"\xef\xbf\xbf", "FAULT reader 0 65535 control characters are not allowed"),
    ("any", b"\xfe\xff\x26\x3a", "STREAM-START 0:0:0 0:0:0 UTF16BE / SCALAR 0:0:0 3:0:1 plain e298ba / STREAM-END 3:1:0 3:1:0"),
    ("utf16be", b"\xfe\xff\x26\x3a", "STREAM-START 0:0:0 0:0:0 UTF16BE / SCALAR 3:0:1 6:0:2 plain e298ba / "
     "STREAM-END 6:1:0 6:1:0"),
    ("any", b"\xfe\xff", "STREAM-START 0:0:0 0:0:0 UTF16BE / STREAM-END 0:0:0 0:0:0"),
    ("any", b"\xfe\xff\xff\xff", "FAULT reader 2 65535 control characters are not allowed"),
    ("utf16be", b"\xd8\x00", "FAULT reader 0 -1 incomplete UTF-16 surrogate pair"),
    ("utf16be", b"\xd8\x00\xdc\x00", "STREAM-START 0:0:0 0:0:0 UTF16BE / SCALAR 0:0:0 4:0:1 plain f0908080 / "
     "STREAM-END 4:1:0 4:1:0"),
    ("utf8", b"\xff\xfe", "FAULT reader 0 255 invalid leading UTF-8 octet"),
]
# The worked rows that are too long for vectors/rows.txt. Their lines are those of tests/deep.py.
DEEP_ROWS = [b"[" * 100_000, b"]" * 100_000, b"- " * 50_000]


def rows():
    """Each row: the words of its command, its input, and its lines."""
    with open(os.path.join(HERE, "vectors", "rows.txt"), encoding="ascii") as lines:
        for line in lines:
            words, data, wanted = line.rstrip("\n").split("\t")
            yield words.split(" "), bytes.fromhex(data.strip("-")), wanted.split(" / ") if wanted else []


def openers(count):
    """The lines of a scan of so many `[`."""
    return ["STREAM-START 0:0:0 0:0:0 UTF8", *run_of("FLOW-SEQUENCE-START", count)]


def scans():
    """A scan of each input of the worked rows, and of those of QUEUES: the words, the input, and the lines.

    An input of a row that decodes or makes calls has to have one.
    """
    every = [(words, data, lines) for words, data, lines in rows() if words[0] == "scan"]
    every += [(["scan", setting], data, text.split(" / ")) for setting, data, text in OTHER_SCANS]
    for data, limit, word, _ in QUEUES:
        if word == "sp":
            every.append((["scan", "any", *([] if limit == 1024 else [str(limit)])], data, openers(len(data))))
    scanned = {(words[1], data) for words, data, _ in every if len(words) == 2}
    for words, data, _ in rows():
        if (words[1], data) not in scanned and len(words) == (3 if words[0] == "calls" else 2):
            raise SystemExit(f"worked.py: no scan of the input of {words}, {data!r}")
    return every


def queued(testbench, data, limit, word):
    """How many steps are queued after each call on an input."""
    words = [testbench, "each", "any", str(limit), word]
    done = subprocess.run(words, input=data, capture_output=True, check=True, timeout=60)
    return [int(state.split(" ")[2]) for state in done.stdout.decode("ascii").splitlines()[1::2]]


def is_utf8(setting, data):
    """Whether the encoding that is set, or the input's if none is set, is UTF-8."""
    return setting == "utf8" or setting == "any" and not data.startswith((b"\xff\xfe", b"\xfe\xff"))


def takes_no_memory(words, data, lines):
    """Whether the answers take no memory: decoding of UTF-8, and UTF-8 that is refused if the first step is near."""
    return is_utf8(words[1], data) and (words[0] == "decode" or lines[0].startswith("FAULT reader"))


def is_ended(line):
    return line.startswith("STREAM-END")


class Session:
    """The answers to calls, by the lines of a scan of the whole input. Memory is refused at call number `refused`."""

    def __init__(self, lines, refused=None):
        self.tokens = [line for line in lines if not line.startswith("FAULT")]
        self.fault = lines[-1] if lines[-1].startswith("FAULT") else None
        self.taken, self.made, self.refused = 0, 0, refused
        self.peeked = self.over = False
        self.shown = None

    def may_want_memory(self, letter):
        return letter in "sp" and not self.over and not self.peeked

    def take(self):
        self.taken += 1
        self.peeked = False
        self.over = is_ended(self.tokens[self.taken - 1])
        return self.tokens[self.taken - 1]

    def call(self, letter):
        number, self.made = self.made, self.made + 1
        if letter == "k":
            return "SKIP" if self.peeked and self.take() else IDLE["k"]
        if self.over:
            return IDLE[letter]
        if number == self.refused or self.taken == len(self.tokens):
            self.over, self.shown = True, MEMORY if number == self.refused else self.fault
            return self.shown
        if letter == "s":
            return self.take()
        self.peeked = True
        return "PEEK " + " ".join(self.tokens[self.taken].split(" ")[:3])

    def calls(self, word):
        return [self.call(letter) for letter in word]


def session_of(lines, word, found, may_refuse=True):
    """The session whose answers to the calls of the word are those found, with at most one memory fault, or None."""
    if Session(lines).calls(word) == found:
        session = Session(lines)
        session.calls(word)
        return session
    if not may_refuse or found.count(MEMORY) != 1:
        return None
    at = found.index(MEMORY)
    before = Session(lines)
    before.calls(word[:at])
    if at >= len(word) or not before.may_want_memory(word[at]):
        return None
    session = Session(lines, at)
    return session if session.calls(word) == found else None


def build_refuser(room):
    """Compiles growths.c, which is called before the C library's `malloc`."""
    path = os.path.join(room, "growths.so")
    subprocess.run(["cc", "-O1", "-shared", "-fPIC", "-o", path, os.path.join(HERE, "growths.c")], check=True)
    return path


def run(program, words, data, refuser, number, after_reading=False, counts=None):
    """Runs a program in which the request of that number is refused, none for 0, all from N on for `N-`. The counts of
    requests are written to the file `counts`."""
    environment = {**os.environ, "LD_PRELOAD": refuser, "REFUSED_GROWTH": str(number)}
    if after_reading:
        environment["REFUSED_BEHIND_READ"] = "1"
    if counts:
        environment["COUNTED_GROWTHS"] = counts
    return subprocess.run([program, *words], input=data, capture_output=True, timeout=60, env=environment)


def run_told(program, words, data, refuser, number, after_reading=False):
    """Runs it likewise. Returns what it did, how many requests it made for each line that it wrote and after the last
    one, how many blocks were not freed, and the most bytes that a counted request asked for."""
    path = os.path.join(os.path.dirname(refuser), f"counts.{threading.get_ident()}")
    done = run(program, words, data, refuser, number, after_reading, path)
    with open(path, encoding="ascii") as lines:
        *counts, held, greatest = map(int, lines)
    os.remove(path)
    return done, counts, held, greatest


def run_counted(program, words, data, refuser, number, after_reading=False):
    """What `run_told` returns, without bytes."""
    return run_told(program, words, data, refuser, number, after_reading)[:3]
