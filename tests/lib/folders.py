"""The README.md of a folder of code, definitions or shared scripts: a table of its files, with the first sentence of each."""

import os
import re

from repository import TOP, found, read

MOST_FILES = 8  # a folder with more has a README.md
# How a file begins, by its ending, and the marks of the lines there.
FRONTS = {".antt": r"(?:-- [^\n]*\n)+", ".rt": r"(?://! [^\n]*\n)+", ".zsh": r"(?:# [^\n]*\n)+", ".py": r'""".*?(?:"""|\n\n)'}
MARKS = re.compile(r'^(?:--|//!|#) |"""', re.M)
WHAT = {"src": "The code of `{crate}`", "specs": "The definitions of `{crate}`", "inside": "What only the running code of `{crate}` needs",
        "lib": "What the scripts share"}
# What a README.md says before its table.
NOTES = {
    "crates/yaml_scan/specs": 'Begin with `Headline.antt`. "What the headline stands on" in `docs/ARCHITECTURE.md` has the files under it in the '
    "order in which to read them, with their lines; all others may be skipped.\n\n",
}
# What a file has that begins with no comment.
NAMELESS = {"Lib.antt": "The list of the modules.", "tests.rt": "Tests of the crate."}


def sources(folder):
    """The files of a folder that begin with a sentence."""
    return sorted(name for name in os.listdir(os.path.join(TOP, folder)) if os.path.splitext(name)[1] in FRONTS)


def sentence(folder, name):
    """The first sentence of the comment at the front of a file."""
    front = re.match(r"(?:#!/[^\n]*\n)?(" + FRONTS[os.path.splitext(name)[1]] + ")", read(f"{folder}/{name}"), re.S)
    said = re.match(r".*?[.:](?= [A-Z]|$)", " ".join(MARKS.sub("", front[1]).split())) if front else None
    if not said and name not in NAMELESS:
        raise ValueError(f"{folder}/{name}: it does not begin with a sentence")
    return said[0] if said else NAMELESS[name]


def listing(folder):
    """The text of the README.md of a folder."""
    crate, kind = folder.split("/")[1], folder.split("/")[-1]
    head = WHAT.get(kind, "The folder `" + kind + "` of `{crate}`").format(crate=crate)
    rows = "".join(f"| `{name}` | {sentence(folder, name)} |\n" for name in sources(folder))
    note = NOTES.get(folder, "")
    return f"# {head}\n\n{note}`./dev folders` writes this table, from the first sentence of each file.\n\n| File | What it has |\n|---|---|\n{rows}"


def listings():
    """Each README.md by its path, as it would be written now."""
    paths = [path for pattern in ("crates/*/src/", "crates/*/specs/", "crates/*/specs/*/", "tests/lib/") for path in found(pattern)]
    return {f"{path}/README.md": listing(path) for path in paths if len(sources(path)) > MOST_FILES}
