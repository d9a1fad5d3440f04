"""The documents that `./dev folders` writes, in whole or between two marks; tests/documents.py fails if one is stale."""

import os

from clauses import with_clauses
from folders import listings
from headline import with_lists
from laws import with_laws
from repository import TOP, found, read

PARTS = {"docs/ARCHITECTURE.md": with_lists, "docs/PROMISES.md": with_laws, "docs/RULES.md": with_clauses}


def stale():
    """Those that are missing or not as they would be written now, by their paths; a ValueError says why one can not be written."""
    made = {**listings(), **{path: part(read(path)) for path, part in PARTS.items()}}
    return {path: text for path, text in made.items() if not found(path) or read(path) != text}


def write_all():
    """Writes those that are stale, and returns their paths."""
    made = stale()
    for path, text in made.items():
        with open(os.path.join(TOP, path), "w", encoding="utf-8") as out:
            out.write(text)
    return list(made)
