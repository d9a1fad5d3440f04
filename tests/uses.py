#!/usr/bin/env python3
"""Builds the programs of uses/ over the library of ffi/, and runs them: uses.py [PROGRAM].

lint: small inputs of each kind of message, whose whole output and exit status are compared. The inputs of vectors/rows.txt and
vectors/scan.txt.gz that are scanned in any encoding with the usual key limit end with status 0 or 1 and with the expected
fault, thirty of them under valgrind; in pieces of 1, 7 and 4,096 bytes the messages are the same. Each request for memory is
refused in turn on four small inputs and on a folder.

lint of folders: the YAML files below them in order of name, also if there are many, and no links, pipes or other names. A name
that is not there, a folder and a file that may not be read, and a path that is too long each have their line and the status 3;
all else is looked at.

highlight: on the worked rows and every third of those inputs the terminal's output without the escape sequences, and the page
without tags and entities, are the input byte for byte, where what a terminal would act on and what a page may not hold stand as
their bytes; for UTF-16 they are its text. With NO_COLOR the terminal gets the same without sequences. In a real terminal the last
line is ended before a message, and only there. On the page each token that the vectors name has the colour of its kind, comments
have theirs, nothing else between tokens has one, and the fault is marked at its place. The colours of some inputs are written
down here, for the terminal and the page. What is read in pieces of 1, 7 and 4,096 bytes is shown as the whole.

Both: inputs of 100,000 openers, keys, anchors and so on end within five seconds each, also in pieces of 100 bytes.
What needs a C compiler, rustc (1.63 or later) or valgrind is skipped when there is none, and that is said.
"""

import html.parser
import os
import pty
import re
import shutil
import subprocess
import sys
import tempfile
import time
from concurrent.futures import ThreadPoolExecutor

HERE = os.path.dirname(os.path.abspath(__file__))
USES = os.path.join(os.path.dirname(HERE), "uses")
sys.path[:0] = [HERE, os.path.join(HERE, "lib")]
sys.dont_write_bytecode = True
from ffi import FFI, build_rust, has_rust, vectors
from following import SIZES, build_reads
from library import build_library
from worked import build_refuser, rows, run

SECONDS = 5
BATCH = 200
SIZE = 100000
LAST = "".join(chr(plane + last) for plane in range(0, 0x110000, 0x10000) for last in (0xFFFE, 0xFFFF))
NO_HTML = re.compile(f"[\0-\x08\x0b\x0c\x0e-\x1f\x7f-\x9f\ufdd0-\ufdef{LAST}]")
BREAK = re.compile(rb"\r\n|[\r\n]|\xc2\x85|\xe2\x80[\xa8\xa9]")

SAME_A = 'duplicate key "a", first at line 1'
UNUSED_A, MISSING_A = 'no alias uses the anchor "a"', 'no anchor before the alias "a"'
BLANKS = "blanks at the end of a line with a key"
QUOTED = "while scanning a quoted scalar that starts at 3:1"

# Inputs of lint, and the messages without the file's name. What is third is a width.
LINTS = {
    "nothing": (b"", []),
    "clean": (b"a: 1\nb: {a: 2, c: [a, a]}\nd:\n- a: 3\n- a: 4\n", []),
    "block": (b"a: 1\nb: 2\n'a': 3\n\"\\x61\": 4\n", [f"3:1: {SAME_A}", f"4:1: {SAME_A}"]),
    "flow": (b"{a: 1, b: {a: 2}, a: 3, b}\n", [f"1:19: {SAME_A}", '1:25: duplicate key "b", first at line 1']),
    "alone": (b"[{a, a}, [a, a], [a: 1, a: 2]]\n", [f"1:6: {SAME_A}"]),
    "explicit": (b"? a\n: 1\n? !!str a\n: 2\n? [b]\n? [b]\n", [f"3:9: {SAME_A}"]),
    "anchored": (b"&x a: 1\n&y a: *x\n*y : 2\n", [f"2:4: {SAME_A}"]),
    "outer": (b"a:\n  b: 1\n  a: 2\nc: 3\na: 4\n", [f"5:1: {SAME_A}"]),
    "documents": (b"a: 1\n---\na: 2\n---\na: 3\na: 4\n", ['6:1: duplicate key "a", first at line 5']),
    "left open": (b"{a: 1\n--- \n, a}\n", []),
    "not open": (b"a: 1\n]\na: 2\n", [f"3:1: {SAME_A}"]),
    "empty keys": (b"'': 1\n? ''\n", ['2:3: duplicate key "", first at line 1']),
    "control": (b'"\\e\\x9b": 1\n"\\e\\x9b": 2\n', ['2:1: duplicate key "\\x1b\\xc2\\x9b", first at line 1']),
    "long name": (b"%s: 1\n%s: 2\n" % (b"y" * 70, b"y" * 70), [f'2:1: duplicate key "{"y" * 60}...", first at line 1']),
    "tabs": (b"a:\t1\t2\n- b\t\nc: 3\t \n", ["1:3: tab in a line with a key", f"3:5: {BLANKS}"]),
    "no key": (b"- a\t# \t\n- b  \n", []),
    "blanks": ("é: 1  \nb:\n\ne: {c,\n d \n } ".encode(), [f"1:5: {BLANKS}", f"5:3: {BLANKS}"]),
    "width": ("a: {}\nb: {}xé\n".format("é" * 77, "é" * 77).encode(), ["2:81: line of 82 characters, more than 80"]),
    "narrow": (b"a: 1\r\n# long\rb: 2\n", ["2:6: line of 6 characters, more than 5"], "5"),
    "anchors": (b"- &a 1\n- &b 2\n- &a 3\n- *a\n- *a\n", [f"1:3: {UNUSED_A}", '2:3: no alias uses the anchor "b"']),
    "aliases": (b"- *a\n- &a 1\n- *a\n- *b\n", [f"1:3: {MISSING_A}", '4:3: no anchor before the alias "b"']),
    "each document": (b"&a 1\n---\n*a\n...\n--- &a 2\n", [f"1:1: {UNUSED_A}", f"3:1: {MISSING_A}", f"5:5: {UNUSED_A}"]),
    "scanner": (b"- &a b\n---\n- &b c\n- d: e: f\n", [f"1:3: {UNUSED_A}", "4:7: mapping values are not allowed in this context"]),
    "context": (b"a: 1\na: 2\n'b", [f"2:1: {SAME_A}", "3:3: found unexpected end of stream, " + QUOTED]),
    "reader": (b"a: 1\n#\xc3\xa9 \xc3(\nb", ["2:4: invalid trailing UTF-8 octet (byte 11 of the file)"]),
    "blank before": (b"a: 'bcdefghijkl' \xff", ["1:18: invalid leading UTF-8 octet (byte 18 of the file)"]),
    "marked": (b"\xef\xbb\xbfa: 1\na: \xff", ["2:4: invalid leading UTF-8 octet (byte 12 of the file)"]),
    "little": ("\ufeffé: 1\né: 𝄞 \n".encode("utf-16-le"), ['2:1: duplicate key "é", first at line 1', f"2:5: {BLANKS}"]),
    "big": ("\ufeffa: 1\n\n".encode("utf-16-be") + b"\xd8\x00\x00a", ["3:1: expected low surrogate area (byte 17 of the file)"]),
    "breaks": ("a: 1\x85b: 2\u2028c: 3\u2029a: 4".encode(), [f"4:1: {SAME_A}"]),
}

# The parameters of the terminal's colours, and the classes that they show.
COLOURS = {
    "90": "comment", "94": "directive", "1": "document", "91": "indicator", "31": "flow", "36": "key", "32": "quoted",
    "33": "literal", "35": "anchor", "4;35": "alias", "95": "tag", "97;41": "fault",
}
COLOUR = "|".join(COLOURS).encode()
SEQUENCE = re.compile(rb"\x1b\[(?:K|0m|(?P<colour>%s)m|(?:(?P<reversed>%s);)?(?P<reverse>7)m)" % (COLOUR, COLOUR))
# What a terminal would act on: it is shown as its bytes, and so are bytes that are no text.
ACTED_ON = re.compile("[\0-\x08\x0b-\x0c\x0e-\x1f\x7f-\x9f\udc80-\udcff]|\r(?!\n)")

# The classes of the vectors' tokens; all others that have a length are of the class flow.
TOKENS = {
    "VERSION-DIRECTIVE": "directive", "TAG-DIRECTIVE": "directive", "DOCUMENT-START": "document", "DOCUMENT-END": "document",
    "BLOCK-ENTRY": "indicator", "KEY": "indicator", "VALUE": "indicator", "ALIAS": "alias", "ANCHOR": "anchor", "TAG": "tag",
}
SCALARS = {
    "plain": ["plain"], "single": ["quoted"], "double": ["quoted"],
    "literal": ["literal", "comment"], "folded": ["literal", "comment"],
}

# Inputs of highlight with their pieces: what each is, and its text after a space. What stands between pieces has no colour.
PIECES = [
    (b"a: 1 # b\n", ["key a", "indicator :", "plain 1", "comment # b"]),
    (b'- \'a\'\n- "b"\n', ["indicator -", "quoted 'a'", "indicator -", 'quoted "b"']),
    (b"&a !!b c: *d", ["anchor &a", "tag !!b", "key c", "indicator :", "alias *d"]),
    (b"[a, {b: c, d}]", ["flow [", "plain a", "flow ,{", "key b", "indicator :", "plain c", "flow ,", "key d", "flow }]"]),
    (b"? a b\n: - c", ["indicator ?", "key a b", "indicator :-", "plain c"]),
    (b"? - a\n: b", ["indicator ?-", "plain a", "indicator :", "plain b"]),
    (b"|1- # a\n b\n # c\n#d", ["literal |1- ", "comment # a", "literal \n b\n # c\n", "comment #d"]),
    (b"a: >\n b\nc: |\n", ["key a", "indicator :", "literal >\n b\n", "key c", "indicator :", "literal |\n"]),
    (b"%YAML 1.1 #a\n--- #b\n...\n", ["directive %YAML 1.1", "comment #a", "document ---", "comment #b", "document ..."]),
    (b"#a\nb: c: d #e", ["comment #a", "key b", "indicator :", "plain c", "fault :"]),
    (b"- #a\n 'b", ["indicator -", "comment #a", "fault "]),
    (b"- a\n#bcdefghij \xff#c", ["indicator -", "plain a", "comment #bcdefghij ", "fault \xff"]),
    (b"- a\n#bcdefghij \xc3#c", ["indicator -", "plain a", "comment #bcdefghij ", "fault \xc3"]),
    (b"\xff\xfe-\0 \0\xe9\0\n\0", ["indicator -", "plain \xc3\xa9"]),
    (b"\xff\xfe#\0\0\xd8a\0", ["comment #", "fault \xef\xbf\xbd"]),
    (b"- |\r\n a\r\n", ["indicator -", "literal | a"]),
    (b"- a\r- b\xc2\x85- c", ["indicator -", "plain a", "indicator -", "plain b", "indicator -", "plain c"]),
    (b"- a\n#bcdefghij \x1b[0m\r\x7f\xc2\x9b", ["indicator -", "plain a", "comment #bcdefghij ", "fault \x1b"]),
    (b"%YAML\n", ["fault "]),
    (b"{a: 1\n---\n,b", ["flow {", "key a", "indicator :", "plain 1", "document ---", "flow ,", "plain b"]),
]

# Inputs of highlight, a value of NO_COLOR, and what the terminal shows.
SHOWN = [
    (b"- a\r\r\n- b\r\n", "1", b"- a\\x0d\r\n- b\r\n"),
    (b"- a\r\r\n", "", b"\x1b[91m-\x1b[0m a\x1b[7m\\x0d\x1b[0m\r\n"),
    (b"- 'a\x1b[2J\tb", "yes", b"- 'a\\x1b[2J\tb"),
    (b"- 'a\x1b[2J", "", b"- 'a\x1b[97;41;7m\\x1b\x1b[0m[2J"),
    (b"- 'a\xff\xc2\x9b", "0", b"- 'a\\xff\\xc2\\x9b"),
]


def build(room):
    """Builds the programs in a folder; None for what cannot be built here."""
    build_library()
    lint = os.path.join(room, "lint")
    words = ["-std=c11", "-Wall", "-Wextra", "-pedantic", "-Werror", "-O2", "-I", FFI, os.path.join(USES, "lint", "lint.c")]
    subprocess.run(["cc", *words, os.path.join(FFI, "out", "libbogzhami.a"), "-o", lint], check=True)
    if not has_rust():
        return lint, None
    highlight = os.path.join(room, "highlight")
    build_rust(os.path.join(USES, "highlight", "highlight.rs"), highlight)
    return lint, highlight


def write_files(room, inputs):
    """Writes each input into a file of the folder, and returns the names."""
    names = [f"{number}.yaml" for number in range(len(inputs))]
    for name, data in zip(names, inputs):
        with open(os.path.join(room, name), "wb") as out:
            out.write(data)
    return names


def call(room, words, **variables):
    environment = {**{name: value for name, value in os.environ.items() if name != "NO_COLOR"}, **variables}
    return subprocess.run(words, cwd=room, capture_output=True, timeout=300, env=environment)


def unlike_whole(room, words, reads, **variables):
    """What is written otherwise than of whole files if these are read in pieces."""
    whole = call(room, words, **variables)
    for size in SIZES:
        done = call(room, words, LD_PRELOAD=reads, READ_MOST=str(size), **variables)
        if (done.stdout, done.stderr, done.returncode) != (whole.stdout, whole.stderr, whole.returncode):
            yield f"{words} are read otherwise in pieces of {size}"


def every(function, items):
    with ThreadPoolExecutor(max_workers=os.cpu_count()) as pool:
        return list(pool.map(function, items))


def batches(items):
    return [items[at : at + BATCH] for at in range(0, len(items), BATCH)]


# lint


def lint_wrong(lint, room, name):
    """Whether a small input gives other messages or another status than it should."""
    data, wanted, *width = LINTS[name]
    with open(os.path.join(room, name), "wb") as out:
        out.write(data)
    done = call(room, [lint, *(["-w", *width] if width else []), name])
    found = (done.stdout.decode(), done.returncode, done.stderr)
    if found == ("".join(f"{name}:{line}\n" for line in wanted), 1 if wanted else 0, b""):
        return False
    print(f"uses: lint {name}: {found}")
    return True


def try_messages(lint):
    with tempfile.TemporaryDirectory() as room:
        wrong = sum(lint_wrong(lint, room, name) for name in LINTS)
        os.mkdir(os.path.join(room, "folder"))
        statuses = [
            (["none"], 3, "", "lint: none: No such file or directory\n"),
            (["folder"], 0, "", ""),
            (["none", "no key", "not open"], 3, f"not open:3:1: {SAME_A}\n", "lint: none: No such file or directory\n"),
        ]
        for words, *wanted in statuses:
            done = call(room, [lint, *words])
            found = [done.returncode, done.stdout.decode(), done.stderr.decode()]
            if found != wanted:
                print(f"uses: lint {words}: {found}")
                wrong += 1
    with open(os.path.join(USES, "lint", "README.md"), encoding="utf-8") as text:
        shown = "".join(line[4:] for line in text if line.startswith("    uses/lint/mistakes.yaml:"))
    done = call(os.path.dirname(USES), [lint, "uses/lint/mistakes.yaml"])
    if (done.stdout.decode(), done.returncode) != (shown, 1):
        print(f"uses: lint: the README shows {shown}, printed is {done.stdout.decode()}")
        wrong += 1
    count = len(LINTS) + len(statuses) + 1
    print(f"uses: lint: {count} outputs compared, {wrong} wrong")
    return not wrong


def place(mark):
    """A mark of the vectors, as a line and a column from 1."""
    _, line, column = mark.split(":")
    return f"{int(line) + 1}:{int(column) + 1}"


def fault_message(line):
    """What both programs print of a fault of the vectors; without the place when the vectors have only an offset."""
    words = line.split(" ", 4)
    if words[1] == "reader":
        return f": {words[4]} (byte {int(words[2]) + 1} of the file)"
    context, problem = words[4].split("; ", 1)
    start = "" if context == "-" else f", {context} that starts at {place(words[2])}"
    return f"{place(words[3])}: {problem}{start}"


def lint_batch_wrong(lint, room, batch, reads):
    """Whether a call ended or printed otherwise than it should: with status 0 or 1, messages, and the wanted faults. In pieces it
    does the same."""
    words = [lint, *(name for name, _, _ in batch)]
    done = call(room, words)
    lines = done.stdout.decode().split("\n")[:-1]
    found = {name: [] for name, _, _ in batch}
    for line in lines:
        name, _, message = line.partition(":")
        if name not in found or not re.match(r"[1-9]\d*:[1-9]\d*: .", message):
            return f"no message: {line}"
        found[name].append(message)
    for name, data, wanted in batch:
        if wanted[-1].startswith("FAULT") and not any(line.endswith(fault_message(wanted[-1])) for line in found[name]):
            return f"{data}: {wanted[-1]} is not told"
    if done.stderr != b"" or done.returncode != (1 if lines else 0):
        return f"status {done.returncode}, {done.stderr[:80]}"
    return next(unlike_whole(room, words, reads), None)


def try_lint_inputs(lint, scans):
    with tempfile.TemporaryDirectory() as room:
        names = write_files(room, [data for data, _ in scans])
        parts = batches([(name, *scan) for name, scan in zip(names, scans)])
        reads = build_reads(room)
        wrong = [text for text in every(lambda part: lint_batch_wrong(lint, room, part, reads), parts) if text]
        print(f"uses: lint: {len(names)} inputs in {len(parts)} calls, whole and in pieces, {len(wrong)} wrong {wrong[:3] or ''}")
        if shutil.which("valgrind") is None:
            print("uses: valgrind skipped: there is none")
            return not wrong
        checked = names[:: len(names) // 30][:30]
        words = ["valgrind", "-q", "--error-exitcode=99", "--leak-check=full", "--show-leak-kinds=all", lint]
        lost = sum(every(lambda name: call(room, [*words, name]).returncode not in (0, 1), checked))
    print(f"uses: lint: {len(checked)} inputs under valgrind, {lost} with a leak or a wrong access")
    return not wrong and not lost


def memory_refused(lint, path, refuser, seen):
    """Refuses each request for memory in turn, until three runs in a row are whole. Of several files those that are not told to be
    without memory are looked at."""
    whole = run(lint, [path], b"", refuser, 0)
    in_a_row, number = 0, 0
    while in_a_row < 3 and number < 500:
        number += 1
        done = run(lint, [path], b"", refuser, number)
        same = (done.stdout, done.returncode, done.stderr) == (whole.stdout, 1, b"")
        part = not set(done.stdout.splitlines()) - set(whole.stdout.splitlines()) and len(done.stdout) < len(whole.stdout)
        told = done.returncode == 3 and part and re.fullmatch(rb"lint: .*: (out of memory|Cannot allocate memory)\n", done.stderr)
        kind = "whole" if same else "refused" if told else "wrong"
        seen[kind] += 1
        in_a_row = in_a_row + 1 if same else 0


def try_lint_memory(lint):
    seen = {"whole": 0, "refused": 0, "wrong": 0}
    with tempfile.TemporaryDirectory() as room:
        refuser = build_refuser(room)
        for name in ("flow", "anchors", "context", "big"):
            path = os.path.join(room, "file")
            with open(path, "wb") as out:
                out.write(LINTS[name][0])
            memory_refused(lint, path, refuser, seen)
        folder = os.path.join(room, "folder")
        put_files(folder, ["a.yaml", "b/c.yml"])
        memory_refused(lint, folder, refuser, seen)
    print("uses: lint: memory refused: " + ", ".join(f"{count} {kind}" for kind, count in seen.items()))
    return not seen["wrong"] and seen["refused"] > 50


# lint of folders

TWICE = b"a: 1\na: 2\n"
# What is below a folder and is looked at, in that order, and what is not.
LOOKED_AT = ["B.yaml", "a.yaml", "b/.yaml", "b/a/z.yml", "b/a.yaml", "b.yaml", "d.yaml/x.yaml", "e.yml", "é.yml"]
NOT_LOOKED_AT = ["README", "a.YAML", "b/a.yaml~", "b/yaml", "b/yml.txt", "d.yaml/x"]
NOBODY = 65534
DEEP = 3000


def put_files(folder, names):
    for name in names:
        os.makedirs(os.path.dirname(os.path.join(folder, name)), exist_ok=True)
        with open(os.path.join(folder, name), "wb") as out:
            out.write(TWICE)


def messages(folder, names):
    return "".join(f"{folder}{name}:2:1: {SAME_A}\n" for name in names)


def make_deep(room):
    """A folder with files in it, and below it so many folders, each in the one before, that no path reaches the last."""
    put_files(room, ["deep/d/a.yaml", "deep/e.yaml"])
    above = os.open(os.path.join(room, "deep"), os.O_RDONLY)
    for _ in range(DEEP):
        if not os.path.isdir(f"/proc/self/fd/{above}/d"):
            os.mkdir("d", dir_fd=above)
        below = os.open("d", os.O_RDONLY, dir_fd=above)
        os.close(above)
        above = below
    os.close(above)


def linted(lint, room, *words, **how):
    done = subprocess.run([lint, *words], cwd=room, capture_output=True, timeout=60, **how)
    return done.returncode, done.stdout.decode(), done.stderr.decode()


def folder_calls(lint, room):
    """What is called, what came, and what should have come."""
    put_files(room, [f"tree/{name}" for name in LOOKED_AT + NOT_LOOKED_AT])
    os.symlink("../tree", os.path.join(room, "tree", "c"))
    os.symlink("a.yaml", os.path.join(room, "tree", "c.yaml"))
    os.mkfifo(os.path.join(room, "tree", "p.yaml"))
    os.symlink("tree", os.path.join(room, "link"))
    for name in ("tree", "tree/", "link", "link/", "./tree"):
        yield name, linted(lint, room, name), (1, messages(name.rstrip("/") + "/", LOOKED_AT), "")
    yield ".", linted(lint, os.path.join(room, "tree"), "."), (1, messages("./", LOOKED_AT), "")
    put_files(room, ["tree two/README"])
    yield "no YAML files", linted(lint, room, "tree two"), (0, "", "")
    lost = "lint: none: No such file or directory\n"
    yield "none between", linted(lint, room, "tree/d.yaml", "none", "tree/e.yml"), (3, messages("tree/", LOOKED_AT[6:8]), lost)
    many = [f"{number:04}.yaml" for number in range(2000)]
    put_files(os.path.join(room, "many"), reversed(many))
    yield "many", linted(lint, room, "many"), (1, messages("many/", many), "")
    put_files(room, ["shut/a.yaml", "shut/b/c.yaml", "shut/d.yaml", "shut/e.yaml"])
    for name in ("shut/b", "shut/d.yaml"):
        os.chmod(os.path.join(room, name), 0)
    lost = "".join(f"lint: {name}: Permission denied\n" for name in ("shut/b", "shut/d.yaml"))
    how = {"user": NOBODY} if os.geteuid() == 0 else {}
    yield "no permission", linted(lint, room, "shut", **how), (3, messages("shut/", ["a.yaml", "e.yaml"]), lost)
    os.chmod(os.path.join(room, "shut/b"), 0o700)
    make_deep(room)
    found = linted(lint, room, "deep")
    yield "deep", found[:2], (3, messages("deep/", ["d/a.yaml", "e.yaml"]))
    yield "deep, what is lost", bool(re.fullmatch(r"lint: deep(/d){2000,2100}: File name too long\n", found[2])), True
    with open("/dev/full", "wb") as full:
        done = subprocess.run([lint, "many"], cwd=room, stdout=full, stderr=subprocess.PIPE, timeout=60)
    yield "a full disk", (done.returncode, done.stderr), (3, b"lint: standard output: No space left on device\n")


def try_folders(lint):
    with tempfile.TemporaryDirectory() as room:
        os.chmod(room, 0o755)
        found = list(folder_calls(lint, room))
        subprocess.run(["rm", "-rf", os.path.join(room, "deep")], check=True)
    wrong = [(what, str(got)[-600:]) for what, got, wanted in found if got != wanted]
    print(f"uses: lint: {len(found)} calls with folders, {len(wrong)} wrong {wrong[:3] or ''}")
    return not wrong and len(found) > 10


# highlight


class Page(html.parser.HTMLParser):
    """The texts of a page, each a list of pieces, and what is wrong with its elements and its characters."""

    def __init__(self, page):
        super().__init__(convert_charrefs=True)
        self.open, self.texts, self.errors = [], [], []
        self.feed(page.decode("utf-8"))
        self.close()
        self.errors += self.open + NO_HTML.findall(page.decode("utf-8"))

    def handle_starttag(self, tag, attrs):
        if tag == "meta":
            return
        self.open.append((tag, dict(attrs).get("class", "")))
        if tag == "code":
            self.texts.append([])
        if tag == "mark":
            self.texts[-1].append(("fault", b""))

    def handle_endtag(self, tag):
        if not self.open or self.open.pop()[0] != tag:
            self.errors.append(tag)

    def handle_data(self, data):
        if ("code", "") in self.open:
            names = [name for _, name in self.open]
            shown = [name for name in names if name not in ("", "line", "bytes")]
            text = bytes.fromhex(data) if names[-1] == "bytes" else data.encode()
            self.texts[-1].append((shown[-1] if shown else "", text))


def terminal_pieces(shown):
    """The pieces of what the terminal shows. What is in reverse stands for bytes."""
    pieces, at, name, is_reverse = [], 0, "", False
    for found in SEQUENCE.finditer(shown):
        text = shown[at : found.start()]
        pieces.append((name, bytes.fromhex(text.decode().replace("\\x", "")) if is_reverse else text))
        is_reverse = bool(found["reverse"])
        colour = found["colour"] or found["reversed"]
        if colour or is_reverse:
            name = COLOURS[colour.decode()] if colour else ""
        elif found[0] == b"\x1b[0m":
            name = ""
        else:
            pieces.append((name, b""))
        at = found.end()
    return pieces + [(name, shown[at:])]


def plain_text(text):
    """What the terminal shows of a text, without colours."""
    given = text.decode("utf-8", "surrogateescape")
    shown = ACTED_ON.sub(lambda found: "".join(f"\\x{byte:02x}" for byte in found[0].encode("utf-8", "surrogateescape")), given)
    return shown.encode()


def joined(pieces):
    return b"".join(text for _, text in pieces)


def coloured(pieces, dropped=()):
    """The pieces that have a colour, without line breaks, each joined with those of its class that come next."""
    made = []
    for name, text in pieces:
        text = text.removesuffix(b"\r\n").replace(b"\n", b"")
        if made and made[-1][0] == name:
            made[-1] = (name, made[-1][1] + text)
        elif name not in ("", *dropped) and (text or name == "fault"):
            made.append((name, text))
    return made


def utf16_character(part, order):
    """The character that the bytes are, or None when they are not just one."""
    try:
        text = part.decode(order)
    except UnicodeDecodeError:
        return None
    return text if len(text) == 1 else None


def utf16_text(data, order):
    """What is shown of UTF-16: a pair or a unit at a time, and U+FFFD for what is no character."""
    made, at = [], 0
    while at < len(data):
        two, four = (utf16_character(data[at : at + size], order) for size in (2, 4))
        made.append(two or four or "\ufffd")
        at += 4 if four and not two else 2
    return "".join(made).encode()


def shown_text(data):
    if data[:2] in (b"\xff\xfe", b"\xfe\xff"):
        return utf16_text(data[2:], "utf-16-le" if data[0] == 0xFF else "utf-16-be")
    return data


def pieces_wrong(highlight, room, row):
    data, wanted = row
    pairs = [piece.split(" ", 1) for piece in wanted]
    wanted = [(name, text.encode("latin-1")) for name, text in pairs]
    status = 1 if "fault" in dict(wanted) else 0
    name = write_files(room, [data])[0]
    page, terminal = call(room, [highlight, "--html", name]), call(room, [highlight, name])
    on_page, shown = coloured(Page(page.stdout).texts[0]), coloured(terminal_pieces(terminal.stdout), ["plain"])
    good = on_page == coloured(wanted) and shown == coloured(wanted, ["plain"])
    if good and (page.returncode, terminal.returncode) == (status, status):
        return False
    print(f"uses: highlight {data}: {on_page} {shown} {page.returncode} {terminal.returncode}")
    return True


def file_wrong(highlight, name):
    """Whether a file of uses/ is shown with other bytes."""
    with open(os.path.join(USES, name), "rb") as text:
        data = text.read()
    page, terminal = call(USES, [highlight, "--html", name]), call(USES, [highlight, name])
    return joined(Page(page.stdout).texts[0]) != data or joined(terminal_pieces(terminal.stdout)) != data


def try_pieces(highlight):
    files = ["highlight/page.yaml", "lint/mistakes.yaml"]
    wrong = sum(file_wrong(highlight, name) for name in files)
    with tempfile.TemporaryDirectory() as room:
        wrong += len(list(other_pieces(highlight, USES, files, build_reads(room))))
        wrong += sum(pieces_wrong(highlight, room, row) for row in PIECES)
        write_files(room, [b"<&>\"'\r\n"])
        page = call(room, [highlight, "--html", "0.yaml"]).stdout
        wrong += b"&lt;&amp;&gt;&quot;'</span>\r\n</span>" not in page or not page.startswith(b"<!DOCTYPE html>\n")
        for data, no_color, wanted in SHOWN:
            write_files(room, [data])
            wrong += call(room, [highlight, "0.yaml"], NO_COLOR=no_color).stdout != wanted
        write_files(room, [b"<&>\"'\r\n"])
        done = call(room, [highlight, "none", "0.yaml"])
        wrong += (done.returncode, done.stderr) != (3, b"highlight: none: No such file or directory\n") or done.stdout != b"<&>\"'\r\n"
    print(f"uses: highlight: {len(PIECES) + len(SHOWN) + len(files) + 2} outputs compared, {wrong} wrong")
    return not wrong


# Texts that highlight shows in a terminal, the other words, whether there are colours, and what the terminal gets.
OPEN_FAULT = "found unexpected end of stream, while scanning a quoted scalar that starts at 1:1"
IN_TERMINAL = [
    (b"'a", [], "1", f"'a\r\n0.yaml:1:3: {OPEN_FAULT}\r\n"),
    (b"'a\n", [], "1", f"'a\r\n0.yaml:2:1: {OPEN_FAULT}\r\n"),
    (b"'a\n", [], "", f"'a\r\n\x1b[97;41m\x1b[K\x1b[0m\r\n0.yaml:2:1: {OPEN_FAULT}\r\n"),
    (b"a", ["none"], "1", "a\r\nhighlight: none: No such file or directory\r\n"),
    (b"a\n", ["none"], "1", "a\r\nhighlight: none: No such file or directory\r\n"),
    (b"a", [], "1", "a"),
    (b"", ["none"], "1", "highlight: none: No such file or directory\r\n"),
]


def in_terminal(room, words, **variables):
    """What a program writes to a terminal, which is its standard output and its standard error."""
    ours, its = pty.openpty()
    environment = {**{name: value for name, value in os.environ.items() if name != "NO_COLOR"}, **variables}
    with subprocess.Popen(words, cwd=room, stdin=subprocess.DEVNULL, stdout=its, stderr=its, env=environment) as program:
        os.close(its)
        found = b""
        try:
            while piece := os.read(ours, 4096):
                found += piece
        except OSError:  # the program has ended, and no one else has the terminal
            pass
        program.wait(60)
    os.close(ours)
    return found.decode()


def try_terminal(highlight):
    wrong = []
    with tempfile.TemporaryDirectory() as room:
        for data, more, no_color, wanted in IN_TERMINAL:
            write_files(room, [data])
            found = in_terminal(room, [highlight, "0.yaml", *more], NO_COLOR=no_color)
            wrong += [found] if found != wanted else []
        write_files(room, [b"'a"])
        piped = call(room, [highlight, "0.yaml"], NO_COLOR="1")
        wrong += [piped] if (piped.stdout, piped.stderr.decode()) != (b"'a", f"0.yaml:1:3: {OPEN_FAULT}\n") else []
    print(f"uses: highlight: {len(IN_TERMINAL) + 1} texts in a terminal and a pipe, {len(wrong)} wrong {wrong[:2] or ''}")
    return not wrong


def scalar_classes(style, before):
    """The classes that a scalar may have after the token that stands before it and its anchor and tag."""
    classes = SCALARS[style]
    if before == "KEY":
        return ["key", *classes[1:]]
    return classes if before in ("VALUE", "BLOCK-ENTRY") else ["key", *classes]


def token_classes(lines):
    """Where each token with a length starts and ends, and the classes that it may have."""
    before = ""
    for line in lines:
        kind, *words = line.split(" ")
        start, end = (int(word.split(":")[0]) for word in words[:2])
        if start < end:
            yield start, end, scalar_classes(words[2], before) if kind == "SCALAR" else [TOKENS.get(kind, "flow")]
        if kind not in ("ANCHOR", "TAG"):
            before = kind


def fault_place(line, data):
    """The index in the text at which a fault is, or None when the line has only an offset in UTF-16."""
    words = line.split(" ")
    if words[1] == "scanner":
        return int(words[3].split(":")[0])
    if data[:2] in (b"\xff\xfe", b"\xfe\xff"):
        return None
    front = data[: int(words[2])].removeprefix(b"\xef\xbb\xbf")
    return len(front.decode("utf-8", "ignore").encode())


def allowed_classes(text, tokens):
    """The classes that each byte may have: those of its token; in gaps that of a comment from a # on, and otherwise none."""
    allowed, is_comment = [None] * len(text), False
    for start, end, classes in tokens:
        allowed[start:end] = [classes] * (end - start)
    for found in BREAK.finditer(text):
        allowed[found.start() : found.end()] = [[""]] * len(found[0])
    for at, classes in enumerate(allowed):
        is_comment = classes is None and (is_comment or text[at] == ord("#"))
        if classes is None:
            allowed[at] = ["comment" if is_comment else ""]
    return allowed


def fault_mark(pieces):
    """The index at which a fault is marked, or None."""
    at = 0
    for name, part in pieces:
        if name == "fault":
            return at
        at += len(part)
    return None


def classes_wrong(pieces, data, lines):
    """What is wrong with the classes of a text's bytes on the page, by the tokens and the fault that the vectors name."""
    dropped = 3 * data.startswith(b"\xef\xbb\xbf")
    text, marked = joined(pieces)[dropped:], fault_mark(pieces)
    classes = [name for name, part in pieces for _ in part][dropped:]
    fault = lines.pop() if lines[-1].startswith("FAULT") else None
    if (fault is None) != (marked is None):
        return "a fault is not marked, or a mark has no fault"
    if fault and fault_place(fault, data) not in (None, marked - dropped):
        return f"the fault is marked at {marked}"
    tokens = list(token_classes(lines))
    known = max([0, *(end for _, end, _ in tokens)]) if fault else len(text)
    for at, allowed in enumerate(allowed_classes(text, tokens)[:known]):
        if classes[at] not in allowed:
            return f"byte {at} is {classes[at] or 'plain'}, not {allowed}"
    if fault and set(classes[marked - dropped :]) - {"", "fault"}:
        return "there are colours after the fault"
    return None


def other_pieces(highlight, room, names, reads):
    """What is shown otherwise than of whole files if these are read in pieces."""
    for words, no_color in ([], ""), ([], "1"), (["--html"], ""):
        yield from unlike_whole(room, [highlight, *words, *names], reads, NO_COLOR=no_color)


def batch_wrong(highlight, room, batch, reads):
    """What is wrong with the page and the terminal's output for a batch of inputs, each with its name and its lines."""
    names = [name for name, _, _ in batch]
    terminal, page = call(room, [highlight, *names]), call(room, [highlight, "--html", *names])
    faulty = any(lines[-1].startswith("FAULT") for _, _, lines in batch)
    bad = list(other_pieces(highlight, room, names, reads))
    texts = [shown_text(data) for _, data, _ in batch]
    if joined(terminal_pieces(terminal.stdout)) != b"".join(texts):
        bad.append(f"the terminal's output is another text: {names}")
    plain = call(room, [highlight, *names], NO_COLOR="1").stdout
    if plain != b"".join(map(plain_text, texts)) or plain != SEQUENCE.sub(b"", terminal.stdout):
        bad.append(f"without colours the terminal's output is another text: {names}")
    told = [line.split(":", 1) for line in terminal.stderr.decode().split("\n")[:-1]]
    wanted = [(name, fault_message(lines[-1])) for name, _, lines in batch if lines[-1].startswith("FAULT")]
    same = all(one[0] == name and one[1].endswith(text) for one, (name, text) in zip(told, wanted))
    if len(told) != len(wanted) or not same:
        bad.append(f"other faults are told: {names}")
    if (terminal.returncode, page.returncode) != (faulty, faulty):
        bad.append(f"status {terminal.returncode} and {page.returncode}: {names}")
    read = Page(page.stdout)
    if read.errors or len(read.texts) != len(batch):
        return bad + [f"elements are not closed, or characters may not stand on a page: {read.errors[:5]}"]
    for pieces, (_, data, lines) in zip(read.texts, batch):
        text = "the page has another text" if joined(pieces) != shown_text(data) else classes_wrong(pieces, data, list(lines))
        if text:
            bad.append(f"{data}: {text}")
    return bad


def try_texts(highlight, scans):
    with tempfile.TemporaryDirectory() as room:
        names = write_files(room, [data for data, _ in scans])
        batch, reads = [(name, *scan) for name, scan in zip(names, scans)], build_reads(room)
        bad = [text for part in every(lambda part: batch_wrong(highlight, room, part, reads), batches(batch)) for text in part]
    for text in bad[:5]:
        print(f"uses: highlight: {text[:600]}")
    print(f"uses: highlight: {len(scans)} texts in the terminal and on pages, whole and in pieces, {len(bad)} wrong")
    return not bad


# Both


def hostile():
    number = [b"%d" % one for one in range(SIZE)]
    yield "openers", b"[" * SIZE
    yield "mappings", b"{a: " * SIZE
    yield "keys", b"".join(b"key%s: 1\n" % one for one in number)
    yield "flow keys", b"{" + b",".join(number) + b"}"
    yield "same keys", b"a: 1\n" * SIZE
    yield "long keys", b"".join(b"%s%s: 1\n" % (b"k" * 60, one) for one in number)
    yield "anchors", b"".join(b"- &a%s b\n" % one for one in number)
    yield "same anchors", b"- &a b\n" * SIZE
    yield "aliases", b"- &a b\n" + b"- *a\n" * SIZE
    yield "blanks", b" " * SIZE * 10
    yield "no text", b"a: 1\n#" + b"\xff" * SIZE * 10
    yield "behind a fault", b"a: b: c\n" + b"d" * SIZE * 30
    yield "literal", b"- |\n" + b" line\n" * SIZE


def try_hostile(programs):
    wrong, count = 0, 0
    with tempfile.TemporaryDirectory() as room:
        reads = {"LD_PRELOAD": build_reads(room), "READ_MOST": "100"}
        for name, data in hostile():
            with open(os.path.join(room, name), "wb") as out:
                out.write(data)
            for words, variables in [*((words, {}) for words in programs), *((words, reads) for words in programs)]:
                began = time.monotonic()
                done = call(room, [*words, name], **variables)
                taken = time.monotonic() - began
                count += 1
                if done.returncode not in (0, 1) or taken > SECONDS:
                    print(f"uses: {os.path.basename(words[0])} {words[1:]} {name}: status {done.returncode}, {taken:.1f} s")
                    wrong += 1
    print(f"uses: {count} calls on long and deep inputs, {wrong} failed or took more than {SECONDS} s")
    return not wrong


def main():
    if shutil.which("cc") is None:
        print("uses: skipped: no C compiler")
        return 0
    worked = [(data, wanted) for words, data, wanted in rows() if words == ["scan", "any"]]
    scans = [(data, wanted) for words, data, wanted in vectors() if words == ["any"]]
    with tempfile.TemporaryDirectory() as room:
        os.chmod(room, 0o755)  # who has no rights runs lint, too
        lint, highlight = build(room)
        good = [
            try_messages(lint),
            try_lint_inputs(lint, worked + scans),
            try_lint_memory(lint),
            try_folders(lint),
        ]
        if highlight is None:
            print("uses: highlight skipped: no rustc of 1.63 or later")
        else:
            good += [try_pieces(highlight), try_terminal(highlight), try_texts(highlight, worked + scans[::3])]
        good.append(try_hostile([[lint]] + ([[highlight], [highlight, "--html"]] if highlight else [])))
    return 0 if all(good) and len(scans) > 5000 else 1


if __name__ == "__main__":
    from lib.usage import answer_questions

    answer_questions()
    sys.exit(main())
