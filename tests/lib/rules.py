"""The rules of docs/RULES.md: what the line under each heading names, part by part."""

import re

from repository import read

# "Through" is there only if a contract does not cite the definition itself.
PARTS = ("Definition", "Code", "Through", "Proofs", "Shown by")
PART = re.compile(r"\*(" + "|".join(PARTS) + r"):\*")


def front_and_sections():
    """What stands before the first heading, and of each heading its words and what stands under it."""
    front, *sections = re.split(r"^## ", read("docs/RULES.md"), flags=re.M)
    return front, [(section.partition("\n")[0], section.partition("\n")[2]) for section in sections]


def parts_of(text):
    """What each part of a rule's line says; the empty text if the line has no such part."""
    line = next((line for line in text.split("\n") if line.startswith("*Definition:*")), "")
    _, *pieces = PART.split(line)
    return {**dict.fromkeys(PARTS, ""), **dict(zip(pieces[::2], pieces[1::2]))}


def rules():
    """Each heading with the parts of its line."""
    return [(heading, parts_of(text)) for heading, text in front_and_sections()[1]]


def files_in(text):
    """Each file that a part names, with the names in parentheses after it."""
    for path, _, names in re.findall(r"`(crates/[^`]+\.\w+)`( \(((?:`\w+`(?:, )?)+)\))?", text):
        yield path, re.findall(r"`(\w+)`", names)


def tests_in(text):
    """Each file of tests that a part names, with the names before it."""
    for names, path in re.findall(r"((?:`\w+`(?:, | and )?)+) in `(crates/[^`]+\.rt)`", text):
        yield path, re.findall(r"`(\w+)`", names)


def places_in(text):
    """Each file or folder that a part names."""
    return re.findall(r"`((?:crates|tests)/[^`]+)`", text)
