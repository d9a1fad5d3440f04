#!/usr/bin/env python3
"""Builds the libyaml of uses/libyaml, and compares it with libyaml's own library: libyaml.py [PROGRAM].

Both have the same name and export the same functions. A small C program (uses/libyaml/list.c) lists tokens, events and
the nodes of documents with marks, texts, styles and flags, and the error with its words and marks. It is run with
either library on the worked rows, on all inputs of vectors/scan.txt.gz, on texts of bench/realistic.py, on texts made
for the ends of batches and of the room for their texts, and on the YAML files of the repository. The lists are the same, but
for this. Each of these differences is recognised exactly, and has to occur:

- The index of a mark counts bytes of UTF-8, and libyaml's counts characters. The line and the column are the same.
- The limit of a simple key, 1,024, is of bytes too. A key that has more bytes, and no more characters, is refused.
- The error for a wrong escape has `hexadecimal`, which libyaml spells `hexdecimal`.
- A fault of the reader is told at another token. libyaml decodes a block of the input at once, and tells a fault in it
  before all tokens of that block. Here most tokens in front of the fault come first. Either list is a beginning of what
  libyaml makes of the text in front of the fault, and then the same fault; or it is all that libyaml makes of that
  text, if that ends with an error.
- What libyaml makes of the bytes that came is made of them here once seven characters more came, and not always before. That
  is seen by reads that fail: they are told as libyaml tells them, after a beginning of all tokens, and in UTF-16 before all.

It makes no difference in what pieces an input is read: from a file, and by handlers that give 1, 7 or 4,096 bytes a call. A
second program (uses/libyaml/talk.c) lists events over a pipe, and is given the next document when it has listed the one
before. Long comments that come in small pieces take no longer than they should. A read handler is asked for as many bytes
as by libyaml, and for more within a long comment.

A parser that is given up half-way has given a beginning of what it would have given. PyYAML's C loader is run over
either library: the objects are the same, and so are the words of the errors, but for the same differences. A text that is nested
30,000 deep is scanned by it in less than two seconds, for which libyaml needs at least ten times as long. Of a few
small inputs each request for memory is refused in turn; a string needs fewer than an input that is read, since it is not
copied. Valgrind looks at a hundred inputs and some longer ones, in thirteen ways each: scanned to their end, read in pieces, with
reads that fail, and given up half-way. What needs a C compiler, libyaml-dev, a PyYAML that stands on libyaml's shared library, or
valgrind is skipped if there is none.
"""

import codecs
import gzip
import os
import re
import shutil
import subprocess
import sys
import tempfile

HERE = os.path.dirname(os.path.abspath(__file__))
TOP = os.path.dirname(HERE)
sys.path.insert(0, os.path.join(HERE, "lib"))
sys.path.insert(0, os.path.join(TOP, "bench"))
sys.dont_write_bytecode = True
from realistic import realistic
from library import build_library
from libyaml_lists import (ALL, FILE, GIVEN_UP, OURS, READER_FAULT, USE, as_spelled, by_characters, codec_of, environment, listed,
                           questions, run)
from read_handlers import try_handlers
from worked import rows

STRICT = ["-std=c11", "-Wall", "-Wextra", "-pedantic", "-Werror", "-O2"]
SETTINGS = ["any", "utf8", "utf16le", "utf16be"]
KINDS = ["tokens", "events", "nodes"]
DIFFERENCES = ["index", "limit", "spelling", "late"]
NO_ERROR = "'-'"
# what the shim has room for: the tokens of a batch, and at first the bytes of their texts
BATCH = 256
TEXT_ROOM = 16384
# the words of the fault in `"\xZ"`
WORDS = "while parsing a quoted scalar" + "did not find expected hexadecimal number"
# how deep a text is, and the most seconds that scanning it may take
DEEP, SECONDS = 30000, 2
SMALL = [
    b"%YAML 1.1\n%TAG ! x:\n---\n- &a a: [\xc3\xa9, \"b\"]\n- !b {c: *a, d: !!str e}\n- |\n  x\n...\n--- f\n",
    b'a: "\\xZ"\n',
    b"a: [b, c\n",
    b"- a\n- b\n- \xff\n",
    b"? " * 40,
    b"...\n" * (BATCH + 40),
    b"- 'a'\n- '" + b"b" * 3 * TEXT_ROOM + b"'\n- c @\n- @",
]
# how valgrind runs each input: what is taken, in pieces of how many bytes, which read fails, how much is taken at most
WAYS = [
    ("tokens", 0, 0, ALL),
    ("events", 0, 0, ALL),
    ("nodes", 7, 0, ALL),
    ("tokens", FILE, 0, ALL),
    ("tokens", 1, 3, ALL),
    ("events", 5, 2, ALL),
    ("events", 9, 6, ALL),
    ("nodes", 4096, 0, ALL),
    ("tokens", 0, 0, 0),
    ("tokens", 0, 0, 3),
    ("tokens", 0, 0, BATCH + 1),
    ("events", 1, 0, 2),
    ("nodes", 1, 0, 1),
]

# Loads each question's bytes by PyYAML's C loader: a line with the objects, and one with the error.
LOAD = """
import io, sys, yaml, yaml._yaml
if not any("libyaml-0.so.2" in line and (not sys.argv[1] or sys.argv[1] in line) for line in open("/proc/self/maps")):
    sys.exit(3)
def load(data, way):
    objects, error = [], "-"
    given = [data, io.BytesIO(data), data.decode("utf-8", "replace")][way]
    try:
        for one in yaml.load_all(given, Loader=yaml.CSafeLoader):
            objects.append(repr(one))
    except Exception as fault:
        error = type(fault).__name__ + ": " + str(fault)
    print(ascii(objects))
    print(ascii(error))
while line := sys.stdin.buffer.readline():
    size, way = (int(word) for word in line.split())
    load(sys.stdin.buffer.read(size), way)
"""


def output(words, **more):
    return subprocess.run(words, check=True, capture_output=True, text=True, **more).stdout


def has_libyaml():
    """Whether libyaml's static library, its shared one and its header are there."""
    paths = [output(["cc", "-print-file-name=" + name]).strip() for name in ("libyaml.a", "libyaml.so")]
    told = subprocess.run(["cc", "-fsyntax-only", "-x", "c", "-"], input=b"#include <yaml.h>\n", capture_output=True)
    return all(map(os.path.isfile, paths)) and told.returncode == 0


def vectors():
    """The setting and the input of each row of the vectors, and of each worked row."""
    for words, data, _ in rows():
        yield SETTINGS.index(words[1]), data
    with gzip.open(os.path.join(HERE, "vectors", "scan.txt.gz"), "rt", encoding="ascii") as lines:
        for line in lines:
            words, data, _ = line.split("\t")
            yield SETTINGS.index(words.split(" ")[1]), bytes.fromhex(data.strip("-"))


def long_texts():
    """Texts of more than one of libyaml's blocks. Some have a fault that its reader or its scanner finds late."""
    for seed in range(4):
        text = realistic(60_000, seed).encode()
        yield 0, text
        yield 0, text.replace(b"alpha", b"\xce\xb1")
        yield 0, b"\xff\xfe" + text.replace(b"beta", b"\xce\xb2").decode().encode("utf-16-le")
        yield 3, text.decode().encode("utf-16-be")
        yield 0, text + b"last: \x01\n"
        yield 0, text + b"last: @\nvery: \xff\n"
        yield 2, text.decode().encode("utf-16-le") + b"\x00\xdc"


def batch_ends():
    """Texts in which a fault, the stream end or a long text comes where a batch or the room for its texts ends."""
    for count in range(BATCH - 4, BATCH + 3):
        yield 0, b"...\n" * count
        yield 0, b"...\n" * count + b"@"
        yield 0, b"...\n" * count + b"- \x01"
    for count in [*range(TEXT_ROOM - 2, TEXT_ROOM + 3), TEXT_ROOM - 30, TEXT_ROOM - 60, 3 * TEXT_ROOM]:
        yield 0, b"- '" + b"a" * count + b"'\n- b\n- '" + b"c" * 2 * count + b"'\n"
        yield 0, b"- '" + b"a" * count + b"'\n- @"
    # the words of the fault have room after the text, and just so, or have none
    for count in range(TEXT_ROOM - len(WORDS) - 2, TEXT_ROOM - len(WORDS) + 2):
        yield 0, b"- '" + b"a" * count + b'\'\n- "\\xZ"'
    yield 2, ("- '" + "\u4e2d" * TEXT_ROOM + "' @").encode("utf-16-le")


def yaml_files():
    for folder, folders, names in os.walk(TOP):
        folders[:] = [name for name in folders if name not in ("out", ".git")]
        for name in names:
            if name.endswith((".yaml", ".yml")):
                with open(os.path.join(folder, name), "rb") as file:
                    yield 0, file.read()


class Front:
    """What stands in front of a reader's fault: text, bytes, and the input with a scalar of as many bytes there."""

    def __init__(self, setting, data, offset):
        codec, skipped = codec_of(setting, data)
        # the fault may stand inside of a character, of which a part is then left
        self.text = codecs.getincrementaldecoder(codec)("ignore").decode(data[skipped:offset], False)
        self.data = data[:skipped] + self.text.encode(codec)
        count = (len(self.data) - skipped) // len("x".encode(codec))
        self.probe = data[:skipped] + ("x" * count).encode(codec) + data[len(self.data) :]


def fault_offset(*lists):
    """Where the reader's fault is of which one of the lists tells, or None."""
    return next((int(lines[-1].split(" ")[4]) for lines in lists if lines[-1].startswith(READER_FAULT)), None)


def is_late(lines, in_front, fault):
    """Whether a list is right for an input with a reader's fault, by the list of the text in front of it."""
    if lines[-1] == fault:
        return lines[:-1] == in_front[: len(lines) - 1]
    return lines == in_front and lines[-1].startswith("ERROR ")


def outline(lines):
    """Of each line its first word and the indexes of its marks, and of an error its words as well."""
    return [(line.split(" ")[0], re.findall(r"(\d+):\d+:\d+", line), line.partition("; ")[2]) for line in lines]


def widened(text):
    """The text, with as many letters in place of a character as it has bytes."""
    return b"".join(b"x" * len(one.encode()) if ord(one) > 127 else one.encode() for one in text)


class Comparison:
    """The lists of both libraries for many inputs: how many there are of each kind, and which are wrong.

    Here a read handler may give so many bytes in a call, where libyaml is given a string.
    """

    def __init__(self, program, kind, inputs, chunk=0):
        theirs, ours = listed(program, "", kind, inputs), listed(program, OURS, kind, inputs, chunk)
        fronts = [Front(*one, fault_offset(*lists)) for one, *lists in zip(inputs, ours, theirs)]
        in_front = listed(program, "", kind, [(setting, front.data) for (setting, _), front in zip(inputs, fronts)])
        faults = listed(program, "", "tokens", [(setting, front.probe) for (setting, _), front in zip(inputs, fronts)])
        wide = listed(program, "", kind, [(0, widened(front.text)) for front in fronts])
        self.kind = f"{kind}, {chunk} bytes a call" if chunk else kind
        self.seen, self.wrong, self.limited = dict.fromkeys(DIFFERENCES, 0), [], []
        for given, own, their, front, *more in zip(inputs, ours, theirs, fronts, in_front, faults, wide):
            name = self.difference(own, their, front, *more)
            if name == "wrong":
                self.wrong.append((given, own, their, *more))
            elif name == "limit":
                self.limited.append(given)
            for one in name.split():
                self.seen[one] = self.seen.get(one, 0) + 1

    @staticmethod
    def difference(own, their, front, in_front, fault, wide):
        """The names of the documented differences of two lists, or `same`, or `wrong`."""
        counted = by_characters(own, front.text)
        spelled = as_spelled(counted)
        if spelled == their:
            return " ".join(["index"] * (counted != own) + ["spelling"] * (spelled != counted)) or "same"
        if fault_offset(own, their) is not None and all(is_late(one, in_front, fault[-1]) for one in (spelled, their)):
            return "late"
        return "limit" if not front.text.isascii() and outline(own) == outline(wide) else "wrong"

    def tell(self, least):
        """Says what there is, and returns whether nothing is wrong, and at least so many lists are the same."""
        seen = ", ".join(f"{self.seen[name]} {name}" for name in DIFFERENCES)
        same = f"{self.seen['same']} lists are the same"
        print(f"libyaml: {self.kind}: {same}; documented differences: {seen}; {len(self.wrong)} wrong")
        for (setting, data), *lists in self.wrong[:3]:
            print(SETTINGS[setting], data[:100], *(f"\n  {str(lines[-3:])[:400]}" for lines in lists))
        return not self.wrong and self.seen["same"] > least and all(self.seen[name] for name in DIFFERENCES if name != "limit")


def exported(path):
    return [line.split(" ")[2] for line in output(["nm", "-D", "--defined-only", path]).splitlines()]


def own_name(path):
    return re.search(r"SONAME.*\[(.*)\]", output(["readelf", "-d", path]))[1]


def try_names(program):
    stock, made = output(["cc", "-print-file-name=libyaml.so"]).strip(), os.path.join(OURS, "libyaml-0.so.2")
    names = exported(made)
    loads = re.search(r"libyaml-0\.so\.2 => (\S+)", output(["ldd", program], env=environment(OURS)))[1]
    good = names == exported(stock) and own_name(made) == own_name(stock) and loads == made
    print(f"libyaml: {len(names)} exported names, {'the same' if good else 'OTHERS'} as those of {own_name(stock)}")
    return good and len(names) > 50


def try_lists(program, every):
    """Whether all lists are right, and the inputs in which a key is over the limit of bytes alone."""
    made = [Comparison(program, kind, every) for kind in KINDS]
    limited = [given for one in made for given in one.limited]
    return all([one.tell(10000) for one in made]) and len(limited) > 0, limited


def try_chunks(program, inputs):
    """Whether the lists are right if a read handler gives the input, in small pieces and in larger ones."""
    return all([Comparison(program, kind, inputs, chunk).tell(1000) for kind in KINDS for chunk in (1, 7, 4096)])


def try_files(program, inputs):
    """Whether a file gives the lists of a string, and an encoding that there is not is told, of a string and of a file."""
    differ = sum(listed(program, OURS, kind, inputs, FILE) != listed(program, OURS, kind, inputs) for kind in KINDS)
    unknown = [["ERROR 2 0:0:0 0:0:0 0 -1 -; unknown encoding"]]
    wrong = sum(listed(program, OURS, "tokens", [(4, b"a")], chunk) != unknown for chunk in (0, 1, FILE))
    print(f"libyaml: {len(inputs)} inputs read from a file, {differ} of {len(KINDS)} kinds of lists differ, {wrong} wrong settings")
    return not differ and not wrong and len(inputs) > 100


def given_up(kind, lines, most):
    """The list of a parser that is given up after so many tokens, events or documents, by its whole list."""
    is_failed = lines[-1].startswith("ERROR ")
    taken = lines[: len(lines) - is_failed]
    ends = [at for at, line in enumerate(taken, 1) if kind != "nodes" or line.startswith("DOCUMENT ")]
    if most > len(ends) or (most == len(ends) and not is_failed):
        return lines
    return [*lines[: ends[most - 1] if most else 0], GIVEN_UP]


def try_given_up(program, inputs):
    """A parser that is given up has given a beginning, whether of a string or of what a handler reads byte by byte."""
    total, wrong = 0, 0
    for kind in KINDS:
        whole = listed(program, OURS, kind, inputs)
        for chunk, most in [(0, 0), (1, 0), (0, 1), (1, 2), (FILE, 3), (0, 7), (1, BATCH), (0, BATCH + 1)]:
            wanted = [given_up(kind, lines, most) for lines in whole]
            total += sum(lines[-1] == GIVEN_UP for lines in wanted)
            wrong += sum(map(list.__ne__, listed(program, OURS, kind, inputs, chunk, most=most), wanted))
    print(f"libyaml: {total} parsers given up half-way, {wrong} wrong")
    return not wrong and total > 1000


def loading_python():
    """A Python whose PyYAML stands on libyaml's shared library, or None."""
    for python in (sys.executable, "/usr/bin/python3"):
        words = [python, "-c", LOAD, ""]
        if shutil.which(python) and subprocess.run(words, input=b"", capture_output=True).returncode == 0:
            return python
    return None


def loaded(python, library, inputs, way):
    """The objects and the error that PyYAML's C loader makes of each input."""
    asked = b"".join(b"%d %d\n%s" % (len(data), way, data) for data in inputs)
    words = [python, "-c", LOAD, library]
    told = run(words, asked, library, check=True)
    lines = told.stdout.decode("ascii").split("\n")[:-1]
    spelled = [line.replace("expected hexadecimal number", "expected hexdecimal number") for line in lines[1::2]]
    pairs = list(zip(lines[::2], spelled))
    if len(pairs) != len(inputs):
        sys.exit(f"libyaml: PyYAML loaded {len(pairs)} of {len(inputs)} inputs")
    return pairs


def is_late_load(pair, in_front, fault):
    """The same as is_late, of what PyYAML loads."""
    if pair[1] == fault:
        return in_front[0].startswith(pair[0].rstrip("]"))
    return pair == in_front and pair[1] != NO_ERROR


def compare_loads(python, program, inputs, way):
    """How many inputs are loaded differently over both because of a reader's fault, and how many for no good reason."""
    theirs, ours = loaded(python, "", inputs, way), loaded(python, OURS, inputs, way)
    read = [(0, data.decode("utf-8", "replace").encode() if way == 2 else data) for data in inputs]
    tokens = [listed(program, library, "tokens", read) for library in (OURS, "")]
    offsets = [fault_offset(*lists) for lists in zip(*tokens)]
    fronts = [Front(*one, offset) for one, offset in zip(read, offsets)]
    in_front = loaded(python, "", [front.data for front in fronts], way)
    faults = loaded(python, "", [front.probe for front in fronts], way)
    late, wrong = 0, []
    for data, own, their, offset, prefix, fault in zip(inputs, ours, theirs, offsets, in_front, faults):
        if own != their and offset is not None and all(is_late_load(one, prefix, fault[1]) for one in (own, their)):
            late += 1
        elif own != their:
            wrong.append((data[:100], own, their))
    return late, wrong


def try_python(program, every):
    python = loading_python()
    if python is None:
        print("libyaml: PyYAML skipped: none stands on libyaml's shared library")
        return True
    inputs = [data for setting, data in every if setting == 0]
    late, wrong = 0, []
    for way, some in enumerate([inputs, inputs[::5], inputs[1::5]]):
        more = compare_loads(python, program, some, way)
        late, wrong = late + more[0], wrong + more[1]
    found = f"{late} with a late reader fault; {len(wrong)} wrong"
    print(f"libyaml: {len(inputs)} inputs loaded by PyYAML over both; {found}")
    for one in wrong[:3]:
        print(*one, sep="\n  ")
    return not wrong and late > 0 and len(inputs) > 1000


def attack(python, library):
    """How many tokens PyYAML's C loader finds in a deep text, and how many seconds of a processor that takes."""
    code = 'import time, yaml\nbegan = time.process_time()\ncount = sum(1 for _ in yaml.scan("[" * DEEP, Loader=yaml.CSafeLoader))\n'
    words = [python, "-c", code.replace("DEEP", str(DEEP)) + "print(count, time.process_time() - began)"]
    count, seconds = run(words, b"", library, check=True).stdout.split()
    return int(count), float(seconds)


def try_attack():
    """libyaml's time grows with the square of the nesting, and that of this library with the length."""
    python = loading_python()
    if python is None:
        print("libyaml: deep nesting skipped: no PyYAML stands on libyaml's shared library")
        return True
    (count, ours), (known, theirs) = (attack(python, library) for library in (OURS, ""))
    good = count == known == DEEP + 2 and ours < SECONDS and theirs > 10 * ours
    print(f"libyaml: {DEEP} openers: {ours:.2f} seconds, and {theirs:.2f} by libyaml{'' if good else ', WRONG'}")
    return good


def refusals(refuse, data):
    """For tokens, events, and both if they are read: how many requests, errors, wrong ends, and ends that keep some."""
    told = run([refuse], data, OURS, check=True)
    lines = [line.split(" ") for line in told.stdout.decode().splitlines()]
    return {what: [int(count) for count in counts] for what, *counts in lines}


def try_refusals(refuse):
    """Whether each refused request for memory ends well, and a string takes fewer than the same input that is read.

    A refusal leads to an error, unless it is by a quick step, which asks once more. A string is not copied.
    """
    total, bad = 0, []
    for data in SMALL:
        found = refusals(refuse, data)
        total += sum(requests for requests, *_ in found.values())
        if any(wrong or keeping or failed < requests // 2 for requests, failed, wrong, keeping in found.values()):
            bad.append((data[:40], found))
        if found["tokens"][0] >= found["read"][0]:
            bad.append((data[:40], "a string is copied"))
    print(f"libyaml: {total} requests for memory refused, {len(bad)} inputs wrong {bad or ''}")
    return not bad and total > 100


def try_leaks(program, inputs):
    """Whether valgrind finds nothing in any of the ways, and the lists are the same as without it."""
    if shutil.which("valgrind") is None:
        print("libyaml: leaks skipped: no valgrind")
        return True
    asked = b"".join(questions(kind, inputs, *more) for kind, *more in WAYS)
    leaks = ["--leak-check=full", "--show-leak-kinds=all", "--errors-for-leak-kinds=all"]
    plain = run([program], asked, OURS, check=True)
    told = run(["valgrind", "-q", "--error-exitcode=99", *leaks, program], asked, OURS)
    good = told.returncode == 0 and told.stdout == plain.stdout
    found = "no leak and no wrong access" if good else "WRONG " + told.stderr.decode()[:2000]
    count = told.stdout.count(b"\n\n")
    print(f"libyaml: {len(inputs)} inputs under valgrind, each in {len(WAYS)} ways, {found}")
    return good and count == len(WAYS) * len(inputs) and len(inputs) > 100


def build(room, name):
    path = os.path.join(room, name)
    subprocess.run(["cc", *STRICT, os.path.join(USE, name + ".c"), "-lyaml", "-o", path], check=True)
    return path


def main():
    if shutil.which("cc") is None or not has_libyaml():
        print("libyaml: skipped: no C compiler, or no libyaml-dev")
        return 0
    build_library()
    subprocess.run([os.path.join(USE, "build")], check=True)
    ends = list(batch_ends())
    every = [*yaml_files(), *long_texts(), *ends, *vectors()]
    few = [one for one in every if len(one[1]) < 2000][::180][:100]
    with tempfile.TemporaryDirectory() as room:
        program, refuse = build(room, "list"), build(room, "refuse")
        are_right, limited = try_lists(program, every)
        good = [
            are_right,
            try_names(program),
            try_chunks(program, every[::8]),
            try_files(program, every[::20]),
            try_handlers(program, build(room, "talk"), every[::8]),
            try_given_up(program, [*every[::20], *ends]),
            try_python(program, [one for one in every[::2] if one not in limited]),
            try_attack(),
            try_refusals(refuse),
            try_leaks(program, [*few, *ends]),
        ]
    return 0 if all(good) else 1


if __name__ == "__main__":
    from lib.usage import answer_questions

    answer_questions()
    sys.exit(main())
