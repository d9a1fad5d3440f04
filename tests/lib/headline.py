"""What the headline stands on, in docs/ARCHITECTURE.md: the files that Headline.antt reaches by its `use` lines, through all
crates, and those that only what bytes spell reaches. Types of the code are not counted.

Chosen by hand are the order in which to read the first, and the file from which the second go. What each file has is its first
sentence.
"""

import os
import re

from folders import sentence
from repository import between, found, read

BEGIN, END = "<!-- listed by ./dev folders -->", "<!-- end of what is listed -->"
HEADLINE, BYTES = ("yaml_scan", "Headline"), ("yaml_scan", "Decoded")
# Names of yaml_scan, and others by crate and name.
ORDER = """
Headline Seen Parser Session Settled Groups Laid Levels Keys Depth yaml_lexeme/Greatest Allowed Course Near Step Kind Token
yaml_text/Token yaml_text/Fault yaml_text/Offence Source
"""
USE = re.compile(r"^(?:pub )?use Rattle\.(\w+)\.specs\.((?:inside\.)?[A-Z]\w*)", re.M)


def path_of(place):
    return f"crates/{place[0]}/specs/{place[1].replace('.', '/')}.antt"


def closure(start):
    """A file of definitions and all that it reaches."""
    reached, left = [], [start]
    while left:
        place = left.pop(0)
        if place not in reached and found(path_of(place)):
            reached.append(place)
            left += USE.findall(read(path_of(place)))
    return reached


def ordered():
    """The places of ORDER, which are those that the headline reaches."""
    places = [tuple(name.split("/")) if "/" in name else (HEADLINE[0], name) for name in ORDER.split()]
    wrong = sorted(path_of(place) for place in set(places) ^ set(closure(HEADLINE)))
    if wrong:
        raise ValueError(f"tests/lib/headline.py: in ORDER and not reached, or reached and not there: {', '.join(wrong)}")
    return places


def lines(places):
    return sum(read(path_of(place)).count("\n") for place in places)


def entry(place):
    name = path_of(place) if place[0] != HEADLINE[0] else f"{place[1]}.antt"
    return f"`{name}`, {lines([place])} lines: {sentence(*os.path.split(path_of(place)))}"


def with_lists(text):
    """The text of the page with the two lists as they would be written now."""
    first = ordered()
    more = [place for place in closure(BYTES) if place not in first]
    crates = list(dict.fromkeys(crate for crate, _ in more))
    rows = [f"{number}. {entry(place)}" for number, place in enumerate(first, 1)]
    total = f"These are {len(first)} files with {lines(first):,} lines."
    of_bytes = [
        f"- `crates/{crate}/specs/`, {len(own)} files with {lines(own):,} lines: " + ", ".join(f"`{name}.antt`" for _, name in own)
        for crate in crates for own in [[place for place in more if place[0] == crate]]
    ]
    further = f"What bytes spell is in {len(more)} further files with {lines(more):,} lines:"
    return between(text, BEGIN, [*rows, "", total, "", further, "", *of_bytes], END)
