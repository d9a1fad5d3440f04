#!/usr/bin/env python3
"""Writes a YAML text with many tokens: dense.py [BYTES] [SEED] prints about that many bytes (10,000,000, seed 7).

Short keys with short values, lists of numbers and flow mappings, indented by four: about 5.5 bytes a token.
"""

import random
import sys

from common import answer_help

KEYS = "name width height address country position duration quantity identity measured distance reference".split()
VALUES = "yes none open closed northern southern downward selected complete suspended unlimited registered".split()


def key(r):
    return r.choice(KEYS)


def number(r):
    return str(r.randrange(10_000_000)) if r.random() < 0.6 else f"{r.randrange(1000)}.{r.randrange(100_000):05}"


def value(r):
    kind = r.random()
    if kind < 0.5:
        return number(r)
    return f'"{r.choice(VALUES)}"' if kind < 0.6 else r.choice(VALUES)


def numbers(r):
    return "[" + ", ".join(number(r) for _ in range(r.randrange(2, 9))) + "]"


def pairs(r):
    return "{" + ", ".join(f"{key(r)}: {value(r)}" for _ in range(r.randrange(2, 5))) + "}"


def part(r):
    kind = r.random()
    if kind < 0.15:
        return numbers(r)
    return pairs(r) if kind < 0.27 else value(r)


def entries(r, indent):
    return "".join(f"{' ' * indent}- {part(r)}\n" for _ in range(r.randrange(2, 7)))


def mapping(r, indent, depth):
    made = []
    for n in range(r.randrange(3, 8)):
        made.append(f"{' ' * indent}{key(r)}{n}:")
        kind = r.random()
        if depth > 0 and kind < 0.15:
            made.append("\n" + mapping(r, indent + 4, depth - 1))
        elif kind < 0.3:
            made.append("\n" + entries(r, indent + 4))
        else:
            made.append(f" {part(r)}\n")
    return "".join(made)


def dense(size, seed):
    r = random.Random(seed)
    made, count = [], 0
    while count < size:
        made.append(f"{key(r)}{count}:\n" + mapping(r, 4, 3))
        count += len(made[-1])
    return "".join(made)


if __name__ == "__main__":
    answer_help()
    sys.stdout.write(dense(int(sys.argv[1]) if len(sys.argv) > 1 else 10_000_000, int(sys.argv[2]) if len(sys.argv) > 2 else 7))
