#!/usr/bin/env python3
"""Lists inputs while they come: follow.py PROGRAM.

`follow ENC` writes what `scan ENC` does, with the same status: for the inputs of batches.txt.gz and the worked rows, at once and in
pieces of some bytes. Over a pipe that stays open the lines are those of lib/piped.py, as soon as they are settled, and after a fault
the program ends. If a read fails, the lines that are settled are written first. A literal of 100 MB comes whole, in time that grows
with its length.

Each request for memory is refused in turn on some inputs, one of them in two parts: the lines are a beginning of those with ample
memory, and then the program is out of memory, or one fault of kind memory ends them. All blocks are given back.
The failing reads and the refused requests need a C compiler.
"""

import os
import subprocess
import sys
import tempfile
import time
from concurrent.futures import ThreadPoolExecutor

sys.path.insert(0, os.path.join(os.path.dirname(os.path.abspath(__file__)), "lib"))
sys.dont_write_bytecode = True
from pieces import inputs
from piped import COURSES, course_problem, literal, try_failed, try_followed, write_all
from worked import MEMORY, build_refuser, run_counted

MOST_SHOWN, TIMEOUT = 20, 60
SIZES = (1, 5, 64)  # bytes of a piece
LONG, MOST_SECONDS = 100_000_000, 40
REFUSED = [b"", b"a: b\nc: *d\n", b"- {a: 'b', c: [d]}\n- |\n  e\n- f\n", b"a: b: c", b"%TAG ! x:\n--- !y &z \"a\\tb\"\n...\n", b"- x\n" * 60, b"a\xff"]


def listed(program, words, data):
    """What the program writes of an input, and its status."""
    done = subprocess.run([program, *words], input=data, capture_output=True, timeout=TIMEOUT)
    return done.stdout, done.returncode, done.stderr


def listed_in_pieces(program, words, data, size):
    """The same of an input that is written in pieces."""
    pipe = subprocess.PIPE
    course = subprocess.Popen([program, *words], stdin=pipe, stdout=pipe, stderr=pipe)
    try:
        for at in range(0, len(data), size):
            write_all(course.stdin.fileno(), data[at : at + size])
    except BrokenPipeError:
        pass  # after a fault nothing more is read
    found, told = course.communicate(timeout=TIMEOUT)
    return found, course.returncode, told


def problems_of(program, row):
    """The ways in which an input is listed otherwise than a scan lists it."""
    encoding, data = row
    wanted = listed(program, ["scan", encoding], data)
    found = [("at once", listed(program, ["follow", encoding], data))]
    found += [(f"pieces of {size}", listed_in_pieces(program, ["follow", encoding], data, size)) for size in SIZES]
    return [f"{encoding}, {way}: {data!r}\n  {one!r}\n  not {wanted!r}" for way, one in found if one != wanted]


def is_answered(done, lines, number):
    """Whether the lines are a beginning of those with ample memory, and the end is that of refused memory."""
    found = done.stdout.decode("ascii").splitlines()
    if done.returncode == 3:
        return number > 0 and done.stderr == b"yamltok: out of memory\n" and found == lines[: len(found)]
    if done.stderr or done.returncode != any(line.startswith("FAULT") for line in found):
        return False
    return found == lines or number > 0 and found[-1:] == [MEMORY] and found[:-1] == lines[: len(found) - 1]


def refuse_each(program, refuser, data):
    """How many requests are refused in turn, and which of these are answered wrongly."""
    lines, wrong, number, requests = listed(program, ["scan", "any"], data)[0].decode("ascii").splitlines(), [], 0, 0
    while number <= requests:
        done, counts, held = run_counted(program, ["follow", "any"], data, refuser, number)
        if number == 0:
            requests = sum(counts)
        if held or not is_answered(done, lines, number):
            wrong.append((data, number, done.stdout[-200:], done.returncode, done.stderr, held))
        number += 1
    return requests, wrong


def try_memory(program, room):
    """Whether each refused request is answered."""
    refuser = build_refuser(room)
    found = [refuse_each(program, refuser, data) for data in REFUSED]
    wrong = [one for _, more in found for one in more]
    print(f"follow: {len(REFUSED)} inputs, {sum(count for count, _ in found)} requests refused in turn, {len(wrong)} wrong {wrong[:2] or ''}")
    return not wrong


def try_long(program):
    """Whether a long literal comes whole, in time."""
    data, wanted = literal(LONG)
    begun = time.monotonic()
    found, status, _ = listed(program, ["follow", "any"], data)
    seconds = time.monotonic() - begun
    good = status == 0 and found.decode("ascii").splitlines()[: len(wanted)] == wanted and seconds < MOST_SECONDS
    print(f"follow: a literal of {len(data)} bytes: {seconds:.1f} seconds, {'all right' if good else 'wrong'}", flush=True)
    return good


def main(program):
    every = sorted({(encoding, data) for encoding, _, data in inputs()})
    with ThreadPoolExecutor() as pool:
        problems = [problem for found in pool.map(lambda row: problems_of(program, row), every) for problem in found]
    for problem in problems[:MOST_SHOWN]:
        print(problem)
    print(f"follow: {len(every)} inputs, at once and in pieces of {SIZES} bytes, {len(problems)} wrong", flush=True)
    command = [program, "follow", "any"]
    wrong = [problem for steps, status in COURSES if (problem := course_problem(command, steps, status))]
    print(f"follow: {len(COURSES)} pipes, {len(wrong)} wrong {wrong[:1] or ''}", flush=True)
    good = [not problems, not wrong, try_followed(command, "follow", str), try_long(program)]
    with tempfile.TemporaryDirectory() as room:
        good += [try_failed(command, room, "follow", str, "yamltok: read failed\n"), try_memory(program, room)]
    return 0 if all(good) and every else 1


if __name__ == "__main__":
    from lib.usage import given_program

    sys.exit(main(given_program()))
