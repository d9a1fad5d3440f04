#!/usr/bin/env python3
"""Writes a YAML text such as settings have: realistic.py [BYTES] [SEED] prints about that many bytes (10,000,000, seed 7).

Block mappings and sequences nested a few deep, short plain scalars, some in quotes, comments, small flow lists, a few literals.
"""

import random
import sys

from common import answer_help

NOUNS = (
    "name image port host path level mode user group count limit region cluster service replica volume timeout retries schedule"
    " owner version label target source branch bucket policy handler queue topic"
).split()
WORDS = "alpha beta gamma delta main data node core edge cache proxy batch worker public private shared daily stable".split()


def key(r):
    return r.choice(NOUNS) if r.random() < 0.6 else f"{r.choice(NOUNS)}_{r.choice(WORDS)}"


def plain(r):
    kind = r.random()
    if kind < 0.25:
        return str(r.randrange(100_000))
    if kind < 0.35:
        return r.choice(["true", "false", "null"])
    if kind < 0.55:
        return f"{r.choice(WORDS)}-{r.choice(NOUNS)}-{r.randrange(1000)}"
    if kind < 0.7:
        return f"/{r.choice(WORDS)}/{r.choice(NOUNS)}/{r.choice(WORDS)}.{r.choice(['yml', 'txt', 'so'])}"
    if kind < 0.8:
        return f"https://{r.choice(WORDS)}.example.org:{r.randrange(9000)}/{r.choice(NOUNS)}"
    return " ".join(r.choice(WORDS) for _ in range(r.randrange(1, 6)))


def scalar(r):
    kind = r.random()
    if kind < 0.78:
        return plain(r)
    if kind < 0.9:
        return '"' + r.choice(["", "\\t", "%s: ", "v"]) + plain(r) + r.choice(["", "", "\\n"]) + '"'
    if kind < 0.96:
        return "'" + plain(r) + r.choice(["", "", " it''s"]) + "'"
    return "[" + ", ".join(plain(r) for _ in range(r.randrange(1, 5))) + "]"


def comment(r):
    return "# " + " ".join(r.choice(WORDS + NOUNS) for _ in range(r.randrange(3, 9)))


def literal(r, out, indent):
    out.append("|\n")
    for _ in range(r.randrange(2, 6)):
        out.append(" " * (indent + 2) + " ".join(r.choice(WORDS + NOUNS) for _ in range(r.randrange(3, 12))) + "\n")


def value(r, out, indent, depth):
    kind = r.random()
    if depth > 0 and kind < 0.22:
        out.append("\n")
        mapping(r, out, indent + 2, depth - 1)
    elif depth > 0 and kind < 0.38:
        out.append("\n")
        sequence(r, out, indent + 2, depth - 1)
    elif kind < 0.4:
        out.append(" ")
        literal(r, out, indent)
    else:
        out.append(" " + scalar(r) + (" " + comment(r) if r.random() < 0.05 else "") + "\n")


def mapping(r, out, indent, depth):
    for n in range(r.randrange(2, 8)):
        if r.random() < 0.06:
            out.append(" " * indent + comment(r) + "\n")
        out.append(" " * indent + f"{key(r)}{n}:")
        value(r, out, indent, depth)


def sequence(r, out, indent, depth):
    for _ in range(r.randrange(2, 7)):
        out.append(" " * indent + "-")
        if depth > 0 and r.random() < 0.4:
            out.append(f" {key(r)}: {scalar(r)}\n")
            mapping(r, out, indent + 2, depth - 1)
        else:
            out.append(" " + scalar(r) + "\n")


def realistic(size, seed):
    r = random.Random(seed)
    made, count = [], 0
    while count < size:
        out = [f"{key(r)}{count}:\n"]
        mapping(r, out, 2, 3)
        made.append("".join(out))
        count += len(made[-1])
    return "".join(made)


if __name__ == "__main__":
    answer_help()
    sys.stdout.write(realistic(int(sys.argv[1]) if len(sys.argv) > 1 else 10_000_000, int(sys.argv[2]) if len(sys.argv) > 2 else 7))
