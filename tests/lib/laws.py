"""The lists of laws in docs/PROMISES.md. A law is told once, by the comment of its function in `src/laws.rt`."""

import itertools
import re

from repository import between, found, read

FUNCTION = re.compile(r"((?:^ *///.*\n)*)(?:^ *#\[.*\n)*^ *pub fn (\w+)", re.M)
NUMBERED = re.compile(r"(\w+)_(number|order|hash)")  # the laws of one enum


def laws(path):
    """The laws of a file in their order: name, comment, and the names of its clauses."""
    _, *parts = FUNCTION.split(read(path))
    for comment, name, rest in zip(parts[::3], parts[1::3], parts[2::3]):
        if not comment:
            raise ValueError(f"{path}: {name} has no comment")
        said = " ".join(line.strip(" /") for line in comment.splitlines() if line.strip(" /"))
        yield name, said, re.findall(r"^ *ensures (\w+) \{", rest, re.M)


def family(law):
    """What the laws of one enum have in common, and no others."""
    enum = NUMBERED.fullmatch(law[0])
    return enum[1] if enum else law[0]


def table(path):
    """The rows for the laws of a file; those of one enum share one."""
    yield from ("| Law | By the contract of |", "|---|---|")
    for _, members in itertools.groupby(laws(path), family):
        names, comments, clauses = zip(*members)
        by = [f"`{name}`" + (": " if named else "") + ", ".join(f"`{clause}`" for clause in named)
              for name, named in zip((f"laws::{names[0]}", *names[1:]), clauses)]
        yield f"| {' '.join(comments)} | {', '.join(by)} |"


def with_laws(text):
    """The text of PROMISES with its lists as they would be written now: one for each crate that has laws."""
    for path in found("crates/*/src/laws.rt"):
        crate = path.split("/")[1]
        text = between(text, f"<!-- laws of {crate}, written by ./dev folders -->", table(path), f"<!-- end of the laws of {crate} -->")
    return text
