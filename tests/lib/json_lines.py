"""What uses/json writes: the lines of `scan` that its objects stand for, and the members that docs/COMMANDS.md says they have."""

import json
import os
import re
import subprocess
from concurrent.futures import ThreadPoolExecutor

from ffi import vectors
from following import SIZES, build_reads, in_pieces
from repository import read
from worked import build_refuser, rows, run

MARKS = {"start", "end", "context_mark", "problem_mark"}
EVERY = 5  # of this many vectors one is listed
# All that a string has to escape, and what a reader of lines or a terminal may act on.
RAW = re.compile("[\0-\x1f\x7f-\x9f\u2028\u2029]")
# Inputs with characters that are escaped, and texts that are not UTF-8.
ESCAPES = [
    b'"\\0\\a\\b\\t\\n\\e\\x1f\\x20\\"\\\\\\/\\N\\_\\L\\P\\x7f\\x85\\x9f\\xa0\\u2027\\u202a\\uffff\\U0001f600"',
    b"!%ed%a0%80 a", b"!%c0%80 a", b"!%f4%90%80%80 a", b"!%f8%88 a", b"!%e0%80%80 a", b"!%f0%80%80%80 a", b"!%f0%90%80%80 a",
    b"!%ed%9f%bf a", b"!%ee%80%80 a", b"!%f4%8f%bf%bf a", b"!%c2%80 a", b"!%df%bf a", b"!%c1%bf a", b"!%e0%a0%80 a", b"!%00%0a a",
    b"!%e0%9f%bf a", b"!%f0%8f%bf%bf a", b"!%f5%80%80%80 a", b"!%f3%bf%bf%bf a",
    b"%TAG !a! b:%ed%bf%bf\n--- !a!c d",
]


def once(pairs):
    """An object whose members are named once."""
    made = dict(pairs)
    if len(made) != len(pairs):
        raise ValueError(f"a member stands twice: {pairs}")
    return made


def read_line(line):
    if RAW.search(line):
        raise ValueError(f"a character is not escaped: {line!r}")
    return json.loads(line, object_pairs_hook=once)


def mark(value):
    if list(value) != ["index", "line", "column"]:
        raise ValueError(f"no mark: {value}")
    return ":".join(str(number) for number in value.values())


def hexadecimal(value):
    """A text in hexadecimal. It is an object only if its bytes are not UTF-8."""
    if isinstance(value, str):
        return value.encode("utf-8").hex() or "-"
    [digits] = value.values()
    if list(value) != ["hex"] or bytes.fromhex(digits).decode("utf-8", "ignore").encode().hex() == digits:
        raise ValueError(f"no text: {value}")
    return digits


def line_of(made):
    """The line of `scan` that an object stands for."""
    kind, error = made["type"], made.get("error")
    if kind == "FAULT" and error == "memory":
        return "FAULT memory"
    if kind == "FAULT" and error == "reader":
        return f"FAULT reader {made['offset']} {made['value']} {made['problem']}"
    if kind == "FAULT":
        marks = f"{mark(made['context_mark'])} {mark(made['problem_mark'])}"
        return f"FAULT scanner {marks} {'-' if made['context'] is None else made['context']}; {made['problem']}"
    plain = ("encoding", "major", "minor", "style")
    rest = [str(value) if name in plain else hexadecimal(value) for name, value in list(made.items())[3:]]
    return " ".join([kind, mark(made["start"]), mark(made["end"]), *rest])


def scan_line(line):
    """The line of `scan` that a line of JSON stands for, or the line itself if it stands for none."""
    try:
        return line_of(read_line(line))
    except (ValueError, KeyError, AttributeError, TypeError):
        return line


def members_said():
    """The members of each type, and of each kind of fault, that docs/COMMANDS.md names."""
    table = read("docs/COMMANDS.md").partition("| `type` | Members |\n|---|---|\n")[2].partition("\n\n")[0]
    said = {}
    for row in table.split("\n"):
        types, members = row.strip("| ").split(" | ")
        names = re.findall(r"`([\w-]+)`", types) or ["other"]
        for name in names[1:] if names[0] == "FAULT" else names:
            said[name] = re.findall(r"`(\w+)`", members)
    return said


def wrong_in_pieces(words, data, whole, reads):
    """What is written otherwise than for the whole input if it comes in pieces, or None."""
    for size in SIZES:
        done = subprocess.run(words, input=data, capture_output=True, timeout=60, env=in_pieces(reads, size))
        if (done.stdout, done.stderr, done.returncode) != (whole.stdout, whole.stderr, whole.returncode):
            return f"{words[1:]} {data[:80]}, pieces of {size}: {done.stdout[:300]}, status {done.returncode}, {done.stderr[:80]}"
    return None


def wrong_with(program, row, said, reads):
    """What is wrong with what is written for an input, or None."""
    words, data, wanted = row
    options = [word for pair in zip(("-e", "-l"), words) for word in pair]
    done = subprocess.run([program, *options], input=data, capture_output=True, timeout=60)
    try:
        objects = [read_line(line) for line in done.stdout.decode("utf-8").splitlines()]
        found = [line_of(made) for made in objects]
    except (ValueError, KeyError) as error:
        return f"{words} {data[:80]}: {error!r}"
    status = int(wanted[-1].startswith("FAULT"))
    if (found, done.returncode, done.stderr) != (wanted, status, b""):
        return f"{words} {data[:80]}: {found[:300]}, status {done.returncode}, {done.stderr[:80]}"
    for made in objects:
        name = made.get("error", made["type"])
        if list(made)[1:] != said.get(name, said["other"]):
            return f"{data[:80]}: {name} has the members {list(made)}"
    return wrong_in_pieces([program, *options], data, done, reads)


def inputs(program):
    """The words, inputs and lines: worked rows, vectors, and inputs with escapes, whose lines the program yamltok gives."""
    yield from ((words[1:], data, wanted) for words, data, wanted in rows() if words[0] == "scan")
    yield from list(vectors())[::EVERY]
    for data in ESCAPES if program else []:
        done = subprocess.run([program, "scan", "any"], input=data, capture_output=True, timeout=60)
        yield ["any"], data, done.stdout.decode("ascii").splitlines()


def try_lines(path, program, room):
    """Whether the objects of many inputs are those of the expected lines, also if the inputs come in pieces. `program` is yamltok,
    or None."""
    every, said, reads = list(inputs(program)), members_said(), build_reads(room)
    with ThreadPoolExecutor(max_workers=os.cpu_count()) as pool:
        wrong = [text for text in pool.map(lambda row: wrong_with(path, row, said, reads), every) if text]
    print(f"tools: json: {len(every)} inputs listed, whole and in pieces, {len(wrong)} wrong {wrong[:3] or ''}", flush=True)
    return not wrong and len(every) > 4000 and len(said) == 11


def memory_end(done, whole):
    """How a run ended of which a request for memory was refused."""
    lines = done.stdout.split(b"\n")
    if done.stdout == whole.stdout and done.returncode == whole.returncode:
        return "whole"
    if done.returncode == 3 and b"out of memory" in done.stderr and whole.stdout.startswith(done.stdout):
        return "no room"
    is_fault = done.returncode == 1 and lines[-2:] == [b'{"type":"FAULT","error":"memory"}', b""]
    return "fault" if is_fault and whole.stdout.startswith(b"\n".join(lines[:-2])) else "wrong"


def try_memory(path, room):
    """Refuses each request for memory in turn, until three runs in a row are whole."""
    refuser, seen = build_refuser(room), {"whole": 0, "no room": 0, "fault": 0, "wrong": 0}
    for data in (b"a: 1", b"- [a, b]\n- {c: d}\n", b"a: b: c", b"\xff\xfea\0:\0 \0b\0", b"? |\n  text\n: 'x'\n" + b"y" * 20000):
        whole = run(path, [], data, refuser, 0)
        in_a_row, number = 0, 0
        while in_a_row < 3 and number < 500:
            number += 1
            end = memory_end(run(path, [], data, refuser, number), whole)
            seen[end] += 1
            in_a_row = in_a_row + 1 if end == "whole" else 0
    print("tools: json: memory refused: " + ", ".join(f"{count} {end}" for end, count in seen.items()), flush=True)
    return not seen["wrong"] and seen["no room"] > 5 and seen["fault"] > 5
