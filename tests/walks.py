#!/usr/bin/env python3
"""Follows each rule from its words to a test: walks.py [PROGRAM]. It runs no program.

A rule is a heading of docs/RULES.md. It has four hops, each to what the line under the heading names:

- definition: the files are there, each with names in parentheses, and each file defines its names. So do those of "Through".
- code: for each of these names a clause of a function in one of the code files cites it. If none does, the line has a part
  "Through" with words that a clause cites: they are made of the name, or a lemma of a file there is about both. Each code file
  with clauses has such a clause.
- proof: the places are there, and in them are the folders of proofs of the functions that *Clauses* names; if there is no such
  folder, a lemma in them is about one of the names. If the line says "none by hand", it names no place.
- test: the functions are there and are tests, and so are the files of rows.

What is wrong is told, and a last line counts the hops and those that fail.
"""

import os
import re
import signal
import sys

sys.path.insert(0, os.path.join(os.path.dirname(os.path.abspath(__file__)), "lib"))
sys.dont_write_bytecode = True
from citing import clauses, lemmas, statements
from clauses import citing, clause_of, definitions, words_for
from repository import TEST, found, read
from rules import files_in, places_in, rules, tests_in
from usage import answer_questions


def definition(parts):
    if not definitions(parts["Definition"]):
        yield "no definition is named"
    yield from (f"{path} is not there" for path in places_in(parts["Definition"] + parts["Through"]) if not found(path))
    yield from (f"no name is given of {path}" for path, names in files_in(parts["Definition"]) if not names)
    for path, names in files_in(parts["Definition"] + parts["Through"]):
        there = {name for name, _ in statements(read(path))} if found(path) else names
        yield from (f"{path} does not define {name}" for name in names if name not in there)


def code(parts):
    files = [path for path, _ in files_in(parts["Code"])]
    words = [word for one in definitions(parts["Definition"]) for word in words_for(parts, one)]
    yield from (f"{path} is not there" for path in files if not found(path))
    yield from (f"no clause of its code cites {one[-1]}" for one in definitions(parts["Definition"]) if not clause_of(parts, one))
    for path in filter(found, files):
        if clauses(path) and not any(citing(path, word) for word in words):
            yield f"no clause of {path} cites the definitions"


def folders(parts, functions):
    """The folders of proofs of these functions of a rule's code files."""
    topics = [path.replace("/src/", "/proofs/")[: -len(".rt")] for path, _ in files_in(parts["Code"])]
    return [folder for topic in topics for name in functions for folder in found(f"{topic}/{name}") + found(f"{topic}/*/{name}")]


def proof(parts):
    places, known = places_in(parts["Proofs"]), [clause_of(parts, one) for one in definitions(parts["Definition"])]
    of_clauses = folders(parts, [clause[1] for clause in known if clause])
    yield from (f"{path} is not there" for path in places if not found(path.rstrip("/")))
    if ("none by hand" in parts["Proofs"]) == bool(places):
        yield "either a place or 'none by hand' has to stand under Proofs"
    yield from (f"{folder} is not named" for folder in of_clauses if not any(folder.startswith(place) for place in places))
    inside = [file for place in places for file in ([place] if place.endswith(".antt") else found(f"{place}**/*.antt"))]
    words = {word for one in definitions(parts["Definition"]) for word in words_for(parts, one)}
    if places and not of_clauses and not any(words & named for file in filter(found, inside) for named in lemmas(file).values()):
        yield "nothing there is about the definition"


def test(parts):
    named, files = list(tests_in(parts["Shown by"])), [path for path in places_in(parts["Shown by"]) if path.startswith("tests/")]
    if not named and not files:
        yield "no test is named"
    yield from (f"{path} is not there" for path in files if not found(path))
    for path, names in named:
        there = TEST.findall(read(path)) if found(path) else []
        yield from (f"{name} is no test of {path}" for name in names if name not in there)


HOPS = (definition, code, proof, test)


def main():
    signal.signal(signal.SIGPIPE, signal.SIG_DFL)  # the reader of the lines may end early, as head does
    answer_questions()
    every, failed = rules(), 0
    for heading, parts in every:
        for hop in HOPS:
            wrong = list(hop(parts))
            failed += bool(wrong)
            print("".join(f"{heading}: {hop.__name__} FAILS: {line}\n" for line in wrong), end="")
    print(f"walks: {len(every)} rules, {len(HOPS) * len(every)} hops, {failed} fail")
    return 1 if failed or not every else 0


if __name__ == "__main__":
    sys.exit(main())
