"""The changes that come up, of tests/changes.txt: what each is, and which files it touches."""

import re

from repository import read

LIST = "tests/changes.txt"


def changes():
    """The name of each change with what is said of it: its title, and its lines."""
    parts = re.split(r"^\[(\w+)\] ", read(LIST), flags=re.M)
    return {name: said.strip().partition("\n")[::2] for name, said in zip(parts[1::2], parts[2::2])}


def files_of(lines):
    """The files and folders of a change: what its lines begin with, but for those after a dash and those that go on."""
    return [line.strip().split(": ")[0] for line in lines.split("\n") if re.match(r"  [^ -]", line)]
