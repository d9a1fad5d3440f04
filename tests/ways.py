#!/usr/bin/env python3
"""Takes all tokens of deep and long inputs in every way: ways.py PROGRAM.

lib/taking.py has the ways: each public call that gives tokens, in Rattle and through C, and each command of the program. It is
wrong if a public call has no row there. lib/deep_texts.py has the texts, and how many tokens and which fault each has. For each
way there are texts with a flow depth, with indentation levels, with tokens and with bytes of at least 50,000, in UTF-8, and in
both forms of UTF-16 with a byte order mark and without one. All tokens come, so no memory is wanted at some size.

Then each request for memory is refused in turn while a text of 150 entries is taken, in each way. More than 100 requests are
answered by the memory fault, and fewer than 100 requests leave less than ten tokens, so no list of tokens is made ahead of those
that are taken. The program testbench, which is beside the given one, and ways.c make the calls. Needs a C compiler.
"""

import os
import shutil
import subprocess
import sys
import tempfile
from concurrent.futures import ThreadPoolExecutor

HERE = os.path.dirname(os.path.abspath(__file__))
sys.path.insert(0, os.path.join(HERE, "lib"))
sys.dont_write_bytecode = True
from library import build_library
from repository import TOP
from taking import IN_UTF16, MANY, SIZE, WAYS, inputs_of, path_of, size_problems, table_problems, texts_of
from worked import build_refuser, run, run_counted

TIMEOUT = 120
ENTRIES = 150
# Each entry has an anchor, whose name takes memory: of a scalar the library for C uses the room again.
ENTRY, TOKENS_OF_ENTRY = b"- &x y\n", 3
OTHERS = 4  # the tokens of the stream and of the block
LEAST_FAULTS, MOST_EARLY, TENTH = 100, 100, 10


def build_ways(room):
    """Compiles ways.c over the library for C."""
    library = os.path.join(TOP, "ffi", "out", "libbogzhami.a")
    words = ["-std=c11", "-Wall", "-Wextra", "-Wpedantic", "-Werror", "-O2", "-I", os.path.join(TOP, "ffi")]
    subprocess.run(["cc", *words, os.path.join(HERE, "ways.c"), library, "-o", os.path.join(room, "ways")], check=True)


def count_problem(way, path, taken):
    """What is wrong with the tokens of a text that are taken in a way, or None."""
    deep, setting, data = taken
    tokens = deep.tokens(MANY)
    wanted = way.expected(tokens, deep.fault)
    words = [path, *way.words(setting, deep.limit, tokens + (deep.fault != "-"))]
    try:
        found = way.answer(subprocess.run(words, input=data, capture_output=True, timeout=TIMEOUT))
    except subprocess.TimeoutExpired:
        found = f"more than {TIMEOUT} seconds"
    return None if found == wanted else f"{way.name}: {deep.name}, {setting}, {len(data)} bytes: {found}, not {wanted}"


def early_faults(way, path, refuser):
    """Refuses each request of a way in turn: how many faults of kind memory there are, and how many times there are less than ten
    tokens, or none, since a list found no room."""
    tokens = OTHERS + TOKENS_OF_ENTRY * ENTRIES
    words = way.words("any", 1024, tokens)
    done, counts, _ = run_counted(path, words, ENTRY * ENTRIES, refuser, 0, after_reading=True)
    if way.answer(done) != (tokens, "-"):
        return 0, 0
    found = [way.answer(run(path, words, ENTRY * ENTRIES, refuser, n, after_reading=True)) for n in range(1, sum(counts) + 1)]
    before = [count for count, fault in found if fault != "-"]
    return sum(fault == "memory" for _, fault in found), sum(count < TENTH for count in before)


def ahead_problem(way, path, refuser):
    """What is wrong with the memory faults of a way, or None."""
    faults, early = early_faults(way, path, refuser)
    if faults > LEAST_FAULTS and early < MOST_EARLY:
        return None
    return f"{way.name}: {faults} faults of kind memory, {early} requests that leave less than {TENTH} tokens"


def try_all(program, room):
    """The texts that are taken, and what is wrong; then what is wrong if memory is refused."""
    refuser = build_refuser(room)
    paths = [path_of(program, way.program, room) for way in WAYS]
    taken = [(way, path, one) for way, path in zip(WAYS, paths) for one in inputs_of(way)]
    with ThreadPoolExecutor(max_workers=os.cpu_count()) as pool:
        ahead = pool.map(lambda way, path: ahead_problem(way, path, refuser), WAYS, paths)
        counted = list(pool.map(lambda one: count_problem(*one), taken))
        return len(taken), [text for text in counted if text], [text for text in ahead if text]


def main(program):
    if shutil.which("cc") is None:
        print("ways: skipped: no C compiler")
        return 0
    build_library()
    table = [*table_problems(), *size_problems()]
    with tempfile.TemporaryDirectory() as room:
        build_ways(room)
        count, wrong, ahead = try_all(program, room)
    print("\n".join([*table, *wrong, *ahead, f"ways: {len(WAYS)} ways, {len(table)} rows or sizes are missing"]))
    print(f"ways: {count} inputs taken, of at least {SIZE} levels, depths, tokens and bytes, {len(wrong)} wrong")
    print(f"ways: {len(WAYS)} ways with each request refused, {len(ahead)} make a list ahead, or too few faults")
    return 1 if table or wrong or ahead else 0


if __name__ == "__main__":
    from lib.usage import given_program

    sys.exit(main(given_program()))
