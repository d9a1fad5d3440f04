"""The files of this repository, by their paths from its top, and what of a document stands between two marks."""

import glob
import os
import re

TOP = os.path.dirname(os.path.dirname(os.path.dirname(os.path.abspath(__file__))))
TEST = re.compile(r"^ *#\[test\]\n(?: *(?:#|//).*\n)* *fn (\w+)", re.M)  # a function that is a test


def read(path):
    with open(os.path.join(TOP, path), encoding="utf-8") as text:
        return text.read()


def found(pattern):
    """The files and folders of a pattern."""
    return sorted(os.path.relpath(path, TOP) for path in glob.glob(os.path.join(TOP, pattern), recursive=True))


def edit_name(path):
    """The name of an edit: that of its file."""
    return os.path.basename(path)[: -len(".edit")]


def edits():
    """The must-fail edits as CRATE/NAME, and the wrong programs as wrong/NAME."""
    paths = found("crates/*/must-fail/*.edit") + found("tests/wrong/*.edit")
    return [f"{path.split('/')[1]}/{edit_name(path)}" for path in paths]


def edit_file(name):
    """The file of the edit CRATE/NAME, or of wrong/NAME, a mistake that no contract excludes."""
    crate, _, edit = name.partition("/")
    folder = "tests/wrong" if crate == "wrong" else f"crates/{crate}/must-fail"
    return f"{folder}/{edit}.edit"


def between(text, begin, lines, end):
    """A text with these lines between its two marks, each of which has to stand there once."""
    if text.count(begin) != 1 or text.count(end) != 1:
        raise ValueError(f"not once in its document: {begin} or {end}")
    before, _, rest = text.partition(begin)
    return "\n".join([before + begin, "", *lines, "", end + rest.partition(end)[2]])
