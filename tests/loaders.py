#!/usr/bin/env python3
"""Calls what the package of python/ has for programs that use PyYAML or yamllint today, and looks at its types.

On all texts of tests/python.py, tokens and places of errors are those of PyYAML's own loader with the changes that
lib/own_scanner.py makes in its source, one for each row of the list in python/README.md of what that loader does otherwise. So
a difference that no row explains is wrong. Each example of the list differs, and the change of its row alone explains it.
PyYAML's C loader gives what the list says that this one gives, but for the rows that are said to differ.

`load`, `load_all`, `safe_load` and `safe_load_all` give what PyYAML's give, and refuse loaders that are not of this package. Out
of files in pieces, tokens, events and errors are those of the whole; a document comes while the pipe is held open. A program
with `python3 -m bogzhami.pyyaml` before it, or after `replace_loaders()`, has loaders of this package by all names of PyYAML's,
with the constructors that were added to them, and the words, the folder and the exit status as without it.
`python3 -m bogzhami.yamllint` shows control characters as an error with a place, and has no traceback for them, for bytes that
are no text, a closed pipe, a full device, or an interrupt.

The sources pass `mypy --strict` but for what PyYAML and yamllint have no stubs for, with and without the package's own stubs;
so does a program that uses the package rightly, and one that does not is refused at each line.

What needs PyYAML's C loader, yamllint or mypy is skipped, and says so, if there is none.
"""

import collections
import io
import os
import pathlib
import random
import re
import shutil
import signal
import subprocess
import sys
import tempfile

HERE = os.path.dirname(os.path.abspath(__file__))
TOP = os.path.dirname(HERE)
FOLDER = os.path.join(TOP, "python")
LIBRARY = os.path.join(TOP, "ffi", "out", "libbogzhami.so")
sys.path[:0] = [HERE, os.path.join(HERE, "lib"), FOLDER]
sys.dont_write_bytecode = True
from library import build_library
from python import C_LOADER, DEBIAN, DOCUMENTS, ENVIRONMENT, YAMLLINT, can, every_input, python_that_can, refuses

# The configuration of mypy: what PyYAML and yamllint have no stubs for is not known, also if it is a base of a class.
MYPY = """[mypy]
strict = True
[mypy-yaml.*,yamllint.*]
ignore_missing_imports = True
[mypy-bogzhami.pyyaml.*]
disallow_subclassing_any = False
"""

# A program that uses the package rightly, and one of which each line is wrong.
RIGHT = """import pathlib
from typing import Any, Iterator, List
import bogzhami
from bogzhami import pyyaml
tokens: Iterator[bogzhami.Token] = bogzhami.scan(pathlib.Path("a.yaml"), bogzhami.Encoding.UTF8, key_limit=9)
lines: List[int] = [token.start_mark.line + token.start_mark.index for token in tokens]
bogzhami.scan(b"a", key_limit=True)
bogzhami.scan(bytearray(b"a"))
bogzhami.scan(memoryview(b"a"))
with open("a.yaml") as text, open("a.yaml", "rb") as file:
    bogzhami.scan(text)
    bogzhami.scan(file)
    one: Any = pyyaml.safe_load(file)
    every: Iterator[Any] = pyyaml.safe_load_all(text)
other: Any = pyyaml.load("a", Loader=pyyaml.FullLoader)
others: Iterator[Any] = pyyaml.load_all(b"a", pyyaml.SafeLoader)
feeder = bogzhami.Feeder(bogzhami.Encoding.ANY, key_limit=9)
fed: List[bogzhami.Token] = [*feeder.feed("a"), *feeder.feed(bytearray(b"a")), *feeder.close()]
pyyaml.replace_loaders()
"""
WRONG = """import bogzhami; from bogzhami import pyyaml
bogzhami.scan(5)
bogzhami.scan("a", encoding="utf8")
bogzhami.scan("a", key_limit="9")
pyyaml.safe_load(None)
pyyaml.load("a")
pyyaml.load("a", Loader=5)
pyyaml.load_all("a", "SafeLoader")
value: int = next(bogzhami.scan("a")).value
bogzhami.Feeder("utf8")
bogzhami.Feeder().feed(None)
count: int = bogzhami.Feeder().close()
"""

# A program that has loaders by all names, and says by each what is loaded; a directive tells this scanner from PyYAML's.
PROGRAM = """import sys, yaml, yaml.loader, yaml.cyaml, helper
from yaml import *
from yaml.loader import SafeLoader as Safe
from yaml.cyaml import CSafeLoader as CSafe
KINDS = ["BaseLoader", "SafeLoader", "FullLoader", "UnsafeLoader", "Loader"]
def told(call, *words):
    try:
        made = call(*words)
        return list(map(str, made)) if hasattr(made, "__next__") else made
    except yaml.YAMLError as error:
        return str(error).splitlines()[0]
every = [getattr(yaml, name) for name in KINDS] + [getattr(yaml.loader, name) for name in KINDS]
every += [getattr(yaml, "C" + name) for name in KINDS] + [getattr(yaml.cyaml, "C" + name) for name in KINDS]
every += [globals()[name] for name in KINDS] + [Safe, CSafe]
class Own(yaml.SafeLoader):
    def __init__(self, stream):
        self.more = "more"
        super().__init__(stream)
yaml.add_constructor("!one", lambda loader, node: "one")
yaml.SafeLoader.add_constructor("!two", lambda loader, node: "two")
Own.add_constructor("!three", lambda loader, node: loader.more)
class Four(yaml.YAMLObject):
    yaml_tag = "!four"
print(sys.argv, __name__, __file__, sys.path[0] == helper.FOLDER)
print([told(yaml.load, "a: [1, 2001-02-03]", kind) for kind in every])
print([told(yaml.full_load, "!one a"), told(yaml.load, "!one a", yaml.Loader), told(yaml.safe_load, "!two a")])
print([told(yaml.load, "!three a", Own), vars(told(yaml.full_load, "!four {a: 1}")), yaml.dump({"a": [1]})])
print("--")
print({told(yaml.load, "%FOO a\\n--- b", kind) for kind in every})
calls = [yaml.scan, yaml.parse, yaml.compose, yaml.safe_load, yaml.full_load, yaml.unsafe_load, yaml.safe_load_all]
print({str(told(call, "%FOO a\\n--- b")) for call in [*calls, yaml.full_load_all, yaml.compose_all]})
sys.exit(5)
"""
HELPER = "import os\nFOLDER = os.path.dirname(os.path.realpath(__file__))\n"
# Rows of the list in which PyYAML's C loader differs too, by names of lib/loading.py.
AS_IN_C = {"limit": ["limit"], "octets": ["tag that is no text"], "reader": ["late"]}
# A text in which a break of two characters and a mark of three bytes may be cut.
BREAKS = "\ufeffé: ü\r\n\r\nb:\r- 'c\r\n\n d'\r\n" + "- é\r\n" * 40 + "- [é\r\n"
REFUSED = "while scanning a directive"  # the first line of an error

# A program that calls the function itself, after constructors were added.
LATE = """import yaml
yaml.SafeLoader.add_constructor("!before", lambda loader, node: "before")
yaml.CSafeLoader.add_constructor("!before", lambda loader, node: "c")
yaml.CSafeLoader.add_implicit_resolver("!before", __import__("re").compile("x$"), ["x"])
kept = yaml.SafeLoader
import bogzhami.pyyaml
bogzhami.pyyaml.replace_loaders()
first = yaml.SafeLoader
bogzhami.pyyaml.replace_loaders()
kept.add_constructor("!after", lambda loader, node: "after")
print(first is yaml.SafeLoader, bogzhami.pyyaml.loader_like(first) is first, issubclass(first, kept))
print(yaml.safe_load("[!before a, !after a]"), yaml.load("[!before a, x, y]", Loader=yaml.CSafeLoader))
print(yaml.load("%FOO a\\n--- b", Loader=kept))
try:
    yaml.load("%FOO a\\n--- b", Loader=yaml.CSafeLoader)
except yaml.YAMLError as error:
    print(type(error).__name__)
print(bogzhami.pyyaml.safe_load("x"), yaml.load("x", Loader=yaml.CFullLoader))
"""
LATE_PRINTS = "True True True\n['before', 'after'] ['c', 'c', 'y']\nb\nScannerError\nx x\n"


def run(words, data=b"", **more):
    """What a Python writes, what it says on standard error, and its status."""
    more = {"env": ENVIRONMENT, "timeout": 120, **more}
    done = subprocess.run([sys.executable, *words], input=data, capture_output=True, **more)
    return done.stdout.decode(), done.stderr.decode(), done.returncode


def shown(wrong):
    return f"{len(wrong)} wrong {wrong[:3] or ''}"


# PYYAML'S OWN LOADER


def try_own(every):
    """All texts beside PyYAML's own loader with the changes of all rows, and some beside it with none."""
    changed, plain = own_scanner.loader_with(own_scanner.ROWS), own_scanner.loader_with(())
    wrong = [given for given in every if not own_scanner.is_explained(given, pyyaml.BaseLoader, changed)]
    some = every[::8]
    other = [given for given in some if loading.tokens(given, plain) != own_words(given)]
    unlike = sum(own_words(given) != loading.tokens(given, pyyaml.BaseLoader) for given in some)
    print(f"loaders: {len(every)} inputs beside PyYAML's own loader with {len(own_scanner.ROWS)} changes: {shown(wrong)}; "
          f"of {len(some)} {unlike} differ without, and {len(other)} by what is no change")
    return not wrong and not other and len(every) > 40000 and unlike > len(some) // 4


def own_words(given):
    """The tokens of PyYAML's own loader, with the words of the errors whose words the changes leave out."""
    lines = loading.tokens(given, yaml.BaseLoader)
    if lines[-1][0] == "ScannerError" and lines[-1][-2] == "while scanning for the next token":
        lines[-1] = (*lines[-1][:-2], "", lines[-1][-1])
    if lines[-1][0] == "ScannerError" and lines[-1][-1].startswith("found unknown escape character "):
        lines[-1] = (*lines[-1][:-1], "")
    return lines


def try_rows():
    """The list of README.md: its rows are those of the changes, and each example differs by the change of its row alone."""
    rows, wrong = list(own_scanner.examples()), []
    named = sorted(name or "?" for name, _ in rows)
    if named != sorted([*own_scanner.ROWS, "reader"]):
        wrong.append(named)
    for name, texts in rows:
        alone = own_scanner.loader_with({name} & set(own_scanner.ROWS))
        for text in texts:
            ours, own = loading.tokens(text, pyyaml.BaseLoader), loading.tokens(text, yaml.BaseLoader)
            is_same = own_scanner.without_words(ours) == own_scanner.without_words(own)
            if is_same or not own_scanner.is_explained(text, pyyaml.BaseLoader, alone):
                wrong.append((name, text))
            if set(loading.difference(text, pyyaml.BaseLoader)) - {"open end", *AS_IN_C.get(name, [])}:
                wrong.append((name, text, "the C loader differs"))
    count = sum(len(texts) for _, texts in rows)
    print(f"loaders: {len(rows)} rows and {count} examples of what PyYAML's own loader does otherwise, {shown(wrong)}")
    return not wrong and all(texts for _, texts in rows)


# LOADING


def kinds_of_input(text):
    return [text, text.encode(), text.encode("utf-16"), io.StringIO(text), io.BytesIO(text.encode())]


def documents(call, *words):
    """What is loaded in words, or the class of the error."""
    try:
        made = call(*words)
        return list(map(repr, made)) if hasattr(made, "__next__") else repr(made)
    except (yaml.YAMLError, ValueError, TypeError) as error:
        return type(error).__name__


def told_of(kind, call, *words):
    """What an exception of a call says, if it is of a kind."""
    try:
        call(*words)
    except kind as reason:
        return str(reason)
    return ""


def told(call, *words):
    return told_of((TypeError, ValueError), call, *words)


def limited(limit):
    """A loader with a key limit of its own."""
    return type("Limited", (pyyaml.SafeLoader,), {"key_limit": limit})


def try_loading():
    """`load` and `safe_load` beside PyYAML's, and what they refuse."""
    wrong = []
    pairs = [("load", [pyyaml.FullLoader], yaml.FullLoader), ("load_all", [pyyaml.FullLoader], yaml.FullLoader)]
    pairs += [("load", [pyyaml.loader_like(yaml.SafeLoader)], yaml.SafeLoader), ("safe_load", [], None), ("safe_load_all", [], None)]
    for text in DOCUMENTS:
        for name, words, kind in pairs:
            wanted = documents(getattr(yaml, name), text, *([kind] if kind else []))
            if any(documents(getattr(pyyaml, name), given, *words) != wanted for given in kinds_of_input(text)):
                wrong.append((name, text, wanted))
    others = [yaml.SafeLoader, yaml.CSafeLoader, str, None, "SafeLoader"]
    checks = [
        [pyyaml.safe_load(given) for given in ("", b"", "# a")] == [None] * 3,
        list(pyyaml.load_all("a\n--- b", Loader=pyyaml.BaseLoader)) == ["a", "b"],
        all(refuses(TypeError, pyyaml.load, "a", Loader=kind) for kind in others),
        all(refuses(TypeError, pyyaml.load_all, "a", Loader=kind) for kind in others),
        refuses(yaml.scanner.ScannerError, pyyaml.safe_load, "a: b: c"),
        refuses(yaml.composer.ComposerError, pyyaml.safe_load, "a\n--- b"),
        refuses(yaml.constructor.ConstructorError, pyyaml.safe_load, "!!python/tuple [a]"),
        refuses(TypeError, pyyaml.load, "a"),
        told(pyyaml.safe_load, pathlib.Path("a.yaml")).endswith("Path is given: str, bytes, what has a buffer, or an open file is wanted"),
        told(pyyaml.load, "a", yaml.SafeLoader).startswith(f"{yaml.SafeLoader!r} is no loader of bogzhami.pyyaml; loader_like "),
        told(limited(0), "a").endswith("key limit 0: a whole number from 1 to 65536 is wanted"),
    ]
    found = f"{len(DOCUMENTS)} texts by {len(pairs)} calls, {shown(wrong)}; {checks.count(False)} of {len(checks)} other checks wrong"
    print(f"loaders: {found}")
    return not wrong and all(checks)


def listed_late(call, given, loader):
    """As `loading.listed`, with a look at the marks only after all was given."""
    found, last = [], []
    try:
        for one in call(given, Loader=loader):
            found.append(one)
    except (yaml.YAMLError, ValueError) as error:
        last.append(loading.error_parts(error))
    return [*map(loading.parts, found), *last]


def try_pieces(every):
    """Files that give pieces: tokens, events and errors beside those of the whole, also if marks are looked at later."""
    chance, wrong, lasts = random.Random(3), [], collections.Counter()
    every = [*every, *[given for given in (BREAKS, BREAKS.encode(), BREAKS[1:].encode("utf-16")) for _ in range(10)]]
    for number, given in enumerate(every):
        call, loader = ((yaml.scan, pyyaml.BaseLoader), (yaml.parse, pyyaml.SafeLoader))[number % 2]
        wanted = loading.listed(call, given, loader)
        lasts[wanted[-1][0]] += 1
        for size, listed in ((0, loading.listed), (7, listed_late), (4096, loading.listed)):
            file = feeding.Pieces(feeding.cut(given, size, chance) or [given])
            wrong += [(given, size)] * (listed(call, file, loader) != wanted)
    found = ", ".join(f"{count} {name}" for name, count in sorted(lasts.items()))
    print(f"loaders: {len(every)} inputs out of files in pieces, which end with {found}: {shown(wrong)}")
    return not wrong and all(lasts[name] > 20 for name in ("StreamEndToken", "StreamEndEvent", "ScannerError", "ReaderError"))


def asked_twice(loader):
    """What a loader says each time that it is asked for tokens, up to the exception of a read, and again."""
    found = []
    for _ in range(2):
        try:
            while True:
                found.append(type(loader.get_token()).__name__)
        except OSError as reason:
            found.append(str(reason))
    return found


def named(pieces):
    """A file that gives pieces, and has a name."""
    file = feeding.Pieces(pieces)
    file.name = "é.yaml"
    return file


def try_pipes():
    """A pipe that is held open, a read that fails, and errors with the name of the file."""
    first, rest = (feeding.DOCUMENTS + feeding.MORE).encode(), b"...\n--- x\n...\n"
    before, after = feeding.held_open(feeding.opened(pyyaml.safe_load_all, mode="rb"), 1, first, rest)
    text, failure = (feeding.DOCUMENTS + feeding.MORE).encode(), OSError("no more")
    documents = pyyaml.safe_load_all(feeding.Pieces([text, failure]))
    failing = next(documents), told_of(OSError, next, documents)
    twice = asked_twice(pyyaml.SafeLoader(feeding.Pieces([b"- a\n- " + b"b" * 9, failure, OSError("again")])))
    names = "StreamStartToken BlockSequenceStartToken BlockEntryToken ScalarToken BlockEntryToken".split()
    errors = [told_of(yaml.YAMLError, call, named([b"- [a]\n", b"b: c\n"])) for call in (pyyaml.safe_load, yaml.safe_load)]
    words = "NoneType is given: str or bytes out of a file is wanted"
    checks = [
        before == [["é", ["b"]]] and after == ["c\nd\nééééééé\n", "x"],
        failing == (["é", ["b"]], "no more"),
        twice == [*names, "no more", "again"],
        errors[0] == errors[1] and 'in "é.yaml", line 2, column 1' in errors[0],
        told_of(TypeError, pyyaml.safe_load, feeding.Pieces([b"a", None])) == words,
    ]
    print(f"loaders: pipes and reads that fail, {checks.count(False)} of {len(checks)} checks wrong")
    return all(checks)


# PROGRAMS THAT CAN NOT BE CHANGED


def try_replaced(room):
    """A program, with and without this package before it, and one that calls the function."""
    folder = os.path.join(room, "a folder")
    os.mkdir(folder)
    for name, text in {"program.py": PROGRAM, "helper.py": HELPER, "__main__.py": PROGRAM, "late.py": LATE}.items():
        with open(os.path.join(folder, name), "w", encoding="utf-8") as out:
            out.write(text)
    script, package = os.path.join(folder, "program.py"), ["-m", "bogzhami.pyyaml"]
    pairs = [([script, "a", "-b", "--help"], {}), ([folder], {}), (["-m", "program", "-m"], {"cwd": folder})]
    wrong = []
    for words, more in pairs:
        there, here = run(words, **more), run([*package, *words], **more)
        own, ours = (text.partition("--\n") for text in (there[0], here[0]))
        is_ours = ours[2] == f"{{'{REFUSED}'}}\n" * 2
        if own[0] != ours[0] or there[2] != 5 or here[1:] != ("", 5) or not is_ours or own[2] == ours[2]:
            wrong.append((words, there, here))
    late = run([os.path.join(folder, "late.py")])
    if late != (LATE_PRINTS, "", 0):
        wrong.append(late)
    print(f"loaders: {len(pairs)} programs over this package, and one that calls it: {shown(wrong)}")
    return not wrong


def try_words(room):
    """What `python3 -m bogzhami.pyyaml` says of itself and of wrong words."""
    name, package = "python3 -m bogzhami.pyyaml: ", ["-m", "bogzhami.pyyaml"]
    none = {**ENVIRONMENT, "BOGZHAMI_LIBRARY": "/dev/null/none"}
    usage = r"usage: python3 -m bogzhami\.pyyaml \[-m\] SCRIPT \[WORD \.\.\]\n"
    tried = [
        (["--help"], {}, rf"{usage}(?s:.*)", "", 0),
        (["-h"], {}, rf"{usage}(?s:.*)", "", 0),
        (["--version"], {}, r"bogzhami \d+\.\d+\.\d+\n", "", 0),
        ([], {}, "", rf"{name}a program is wanted\n{usage}", 2),
        (["-c", "1"], {}, "", rf"{name}no such option: -c\n{usage}", 2),
        (["-m"], {}, "", rf"{name}a program is wanted\n{usage}", 2),
        (["nowhere.py"], {"cwd": room}, "", rf"{name}nowhere\.py: No such file or directory\n", 2),
        (["-m", "nowhere"], {"cwd": room}, "", rf"{name}no module named nowhere\n", 2),
        (["-m", "nowhere.more"], {"cwd": room}, "", rf"{name}No module named 'nowhere'\n", 2),
        (["-m", "json.tool", "--help"], {"env": none}, "", rf"{name}no libbogzhami .*\n", 3),
    ]
    wrong = []
    for words, more, out, told, status in tried:
        found = run([*package, *words], **more)
        if not (re.fullmatch(out, found[0]) and re.fullmatch(told, found[1]) and found[2] == status):
            wrong.append((words, found))
    pipe = closed_pipe()
    done = subprocess.run([sys.executable, *package, "--help"], stdout=pipe, stderr=subprocess.PIPE, env=ENVIRONMENT, timeout=60)
    os.close(pipe)
    if (done.stderr, done.returncode) != (b"", 3):
        wrong.append(done)
    print(f"loaders: {len(tried) + 1} words of bogzhami.pyyaml, {shown(wrong)}")
    return not wrong


# YAMLLINT


def lint(python, words, data=b"", **more):
    """What bogzhami.yamllint writes, what it says on standard error, and its status."""
    more = {"stdout": subprocess.PIPE, **more}
    command = [python, "-m", "bogzhami.yamllint", "-f", "parsable", *words]
    done = subprocess.run(command, input=data, stderr=subprocess.PIPE, env=ENVIRONMENT, timeout=60, **more)
    return None if done.stdout is None else done.stdout.decode(), done.stderr.decode(), done.returncode


def closed_pipe():
    """The end of a pipe to write to whose other end is closed."""
    reading, writing = os.pipe()
    os.close(reading)
    return writing


def interrupted(python, path):
    """The status of yamllint at an interrupt, and what it says, when the pipe that it writes to is full."""
    command = [python, "-m", "bogzhami.yamllint", "-f", "parsable", path]
    kinds = {"stdout": subprocess.PIPE, "stderr": subprocess.PIPE}
    with subprocess.Popen(command, env=ENVIRONMENT, **kinds) as program:
        program.stdout.readline()
        program.send_signal(signal.SIGINT)
        told = program.stderr.read().decode()
        program.stdout.close()
        return program.wait(60), told


def try_yamllint(room):
    """Files with characters that no text has, and messages that can not be written."""
    python = python_that_can(YAMLLINT)
    if python is None:
        print("loaders: yamllint skipped: there is none")
        return True
    paths = {}
    texts = {"control": b"---\na:   1\nb: 2\nc: d\ne: f\ng: \x01\n", "octet": b"---\na: \xff\n", "good": b"---\na:   1\n", "long": b"a:   1\n" * 30000}
    for name, data in texts.items():
        paths[name] = os.path.join(room, f"{name}.yaml")
        with open(paths[name], "wb") as out:
            out.write(data)
    spaces = "[error] too many spaces after colon (colons)"
    control = "[error] syntax error: unacceptable character #x0001: control characters are not allowed (syntax)"
    told = f"{paths['control']}:2:5: {spaces}\n{paths['control']}:6:4: {control}\n"
    pipe = closed_pipe()
    with open("/dev/full", "wb") as full:
        found = {
            "control": (lint(python, [paths["control"], paths["good"]]), (told + f"{paths['good']}:2:5: {spaces}\n", "", 1)),
            "from input": (lint(python, ["-"], texts["control"])[0], told.replace(paths["control"], "stdin")),
            "octet": (lint(python, [paths["octet"]])[1:], (f"{paths['octet']}: 'utf-8' codec can't decode byte 0xff in position 7: "
                                                           "invalid start byte\n", 255)),
            "closed, short": (lint(python, [paths["control"]], stdout=pipe), (None, "", 3)),
            "closed, long": (lint(python, [paths["long"]], stdout=pipe), (None, "", 3)),
            "closed, nothing": (lint(python, ["-d", "rules: {}", paths["good"]], stdout=pipe), (None, "", 0)),
            "full": (lint(python, [paths["good"]], stdout=full), (None, "bogzhami.yamllint: [Errno 28] No space left on device\n", 3)),
            "interrupt": (interrupted(python, paths["long"]), (130, "")),
            "help": (lint(python, ["--help"])[2], 0),
            "wrong words": (lint(python, [])[2], 2),
        }
    os.close(pipe)
    wrong = [(name, told) for name, (told, wanted) in found.items() if told != wanted]
    print(f"loaders: {len(found)} runs of bogzhami.yamllint, {shown(wrong)}")
    return not wrong


# TYPES


def mypy(room, *words, **more):
    """What mypy says, with the configuration for these sources."""
    path = os.path.join(room, "mypy.ini")
    with open(path, "w", encoding="utf-8") as out:
        out.write(MYPY)
    words = ["mypy", "--config-file", path, "--cache-dir", os.path.join(room, "mypy"), "--no-error-summary", *words]
    done = subprocess.run(words, capture_output=True, text=True, timeout=300, **more)
    return done.stdout + done.stderr


def try_types(room):
    """mypy on the sources, with the package's own stubs and without, and on two programs."""
    if shutil.which("mypy") is None:
        print("loaders: types skipped: there is no mypy")
        return True
    copies = []
    for name, left_out in (("stubs", ["__pycache__"]), ("sources", ["__pycache__", "*.pyi"])):
        copies.append(os.path.join(room, name))
        shutil.copytree(os.path.join(FOLDER, "bogzhami"), os.path.join(copies[-1], "bogzhami"), ignore=shutil.ignore_patterns(*left_out))
    told = [mypy(room, "-p", "bogzhami", cwd=copy) for copy in copies]
    told.append(mypy(room, os.path.join(FOLDER, "packing", "backend.py")))
    for name, text in (("right.py", RIGHT), ("wrong.py", WRONG)):
        with open(os.path.join(room, name), "w", encoding="utf-8") as out:
            out.write(text)
    here = {"cwd": room, "env": {**os.environ, "MYPYPATH": copies[0]}}
    told.append(mypy(room, "right.py", **here))
    lines = re.findall(r"^wrong\.py:(\d+): error", mypy(room, "wrong.py", **here), re.M)
    wrong = [text for text in told if text] + sorted(set(map(str, range(2, WRONG.count("\n") + 1))) - set(lines))
    print(f"loaders: mypy --strict on the sources and on programs, {shown(wrong)}")
    return not wrong


def main():
    global feeding, loading, own_scanner, pyyaml, yaml
    signal.signal(signal.SIGINT, signal.default_int_handler)
    if shutil.which("cc") is None:
        print("loaders: skipped: no C compiler")
        return 0
    build_library()
    if not can(sys.executable, C_LOADER) and can(DEBIAN, C_LOADER):
        return subprocess.call([DEBIAN, __file__, *sys.argv[1:]], env={**os.environ, "LIBRARY_IS_BUILT": "1"})
    with tempfile.TemporaryDirectory() as room:
        good = [try_types(room), try_yamllint(room)]
        if can(sys.executable, C_LOADER):
            os.environ["BOGZHAMI_LIBRARY"] = LIBRARY
            import feeding
            import loading
            import own_scanner
            import yaml
            from bogzhami import pyyaml

            every = list(every_input())
            good += [try_rows(), try_loading(), try_pieces(every[::60]), try_pipes()]
            good += [try_replaced(room), try_words(room), try_own(every)]
        else:
            print("loaders: PyYAML skipped: there is none with its C loader")
    return 0 if all(good) else 1


if __name__ == "__main__":
    from lib.usage import answer_questions

    answer_questions()
    sys.exit(main())
