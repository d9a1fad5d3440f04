#!/usr/bin/env python3
"""Compares gaps, kinds and lexemes with tests/lexemes.txt: lexemes.py PROGRAM, which runs testbench of the neighbouring folder.

A line of the file is a question for testbench, a tab, and the line that it must return.

Each row of the tables of docs/RULES.md that say what a lexeme may have occurs in one that is read: the escapes; the characters
of uris, in `!<` and `>`, after a handle, and in the prefix of `%TAG`; what may follow a name; the headers of block scalars; and
the breaks, in every kind of scalar.
"""

import os
import re
import subprocess
import sys

BREAKS = ["\n", "\r", "\r\n", "\x85", "\u2028", "\u2029"]
URI = "09AZaz_-;/?:@&=+$.!~*'()%"
STYLES = ["PLAIN", "SINGLE_QUOTED", "DOUBLE_QUOTED", "LITERAL", "FOLDED"]
TABLES = {
    "escapes": list("0abt\tnvfre \"/\\N_LPxuU"),
    "uris between angles": list(URI + ",[]"),
    "uris after a handle": list(URI),
    "prefixes": list(URI + ",[]"),
    "what follows a name": ["", " ", "\t", *BREAKS, *"?:,]}%@`"],
    "headers": [sign + digit for sign in ("", "+", "-") for digit in ("", *"123456789")]
    + [digit + sign for sign in "+-" for digit in "123456789"],
    **{f"breaks in {style}": BREAKS for style in STYLES},
}


def lexemes_read(rows):
    """Of each lexeme that is read: its type, its style if it is a scalar, its characters, and the text after it."""
    for ask, wanted in rows:
        words = wanted.split(" ")
        if words[0] == "LEXEME":
            text = bytes.fromhex(ask.split(" ")[4].strip("-"))
            start, end = (int(mark.split(":")[0]) for mark in words[-4:-2])
            style = words[3][len("YAML_"):-len("_SCALAR_STYLE")] if words[1] == "SCALAR" else None
            yield words[1], style, text[start:end].decode(), text[end:].decode()


def rows_in(kind, style, text, after):
    """The rows of the tables that occur in a lexeme: each with the name of its table."""
    if style:
        yield from ((f"breaks in {style}", row) for row in re.findall("\r\n|[\n\r\x85\u2028\u2029]", text))
    if style == "DOUBLE_QUOTED":
        yield from (("escapes", row) for row in re.findall(r"\\(.)", text, re.S))
    if style in ("LITERAL", "FOLDED"):
        yield "headers", re.match(r"[|>]([+-]?[1-9]?[+-]?)", text)[1]
    if kind in ("ALIAS", "ANCHOR"):
        yield "what follows a name", re.match("\r\n|.|", after, re.S)[0]
    if kind == "TAG-DIRECTIVE":
        yield from (("prefixes", row) for row in re.split("[ \t]+", text)[2])
    if kind == "TAG" and text.startswith("!<"):
        yield from (("uris between angles", row) for row in text[2:-1])
    elif kind == "TAG":
        yield from (("uris after a handle", row) for row in text[1:])


def without_example(rows):
    """The rows of the tables that occur in no lexeme that is read."""
    shown = {row for lexeme in lexemes_read(rows) for row in rows_in(*lexeme)}
    return [(table, row) for table, every in TABLES.items() for row in every if (table, row) not in shown]


def main(program):
    here = os.path.dirname(os.path.abspath(__file__))
    crates = os.path.dirname(os.path.dirname(os.path.dirname(os.path.abspath(program))))
    with open(os.path.join(here, "lexemes.txt"), encoding="utf-8") as lines:
        rows = [line.rstrip("\n").split("\t") for line in lines]
    asked = "".join(ask + "\n" for ask, _ in rows)
    done = subprocess.run([os.path.join(crates, "testbench", "out", "testbench")], input=asked.encode(), capture_output=True, timeout=120)
    answers = done.stdout.decode().splitlines()
    wrong = [(ask, wanted, got) for (ask, wanted), got in zip(rows, answers) if wanted != got]
    for ask, wanted, got in wrong[:20]:
        print(f"{ask}\n  wanted {wanted}\n  got    {got}")
    missing = without_example(rows)
    for table, row in missing:
        print(f"{table}: {row!r} occurs in no lexeme that is read")
    print(f"lexemes: {sum(map(len, TABLES.values()))} rows of tables, {len(missing)} without an example")
    print(f"lexemes: {len(rows)} compared, {len(wrong)} differ")
    return 0 if rows and len(answers) == len(rows) and not wrong and not missing and done.returncode == 0 else 1


if __name__ == "__main__":
    from lib.usage import given_program

    sys.exit(main(given_program()))
