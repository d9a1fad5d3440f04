#!/usr/bin/env python3
"""Counts the requests for memory that each call makes: counts.py PROGRAM, which runs its neighbour testbench too.

No request is made by a call that takes no memory, with no request refused and with each one refused in turn. These are, on
every worked row of vectors/rows.txt, a new parser and the readers of its state; skip; scan and peek of a peeked token, after a
fault, which may be a refused request, and after the end; all calls on an input that is no text from its first lexeme on; and on
UTF-8 decoding, marks, gaps, kinds, deciders, lexemes of one character, document markers, stream ends and character classes at
every place (`testbench bare`).

The other calls make some. On the inputs of requests.txt, which are tags and UTF-16, no more requests are made than by the
program at commit 0fb60f73, and none for more bytes than its greatest, where a lexeme is read alone or a text decoded alone. A
line there has the words of a command of testbench, the input in hexadecimal, the number of requests, and the bytes of the
greatest, or `-` if these are not compared. Its 879 commands are of tags with and without escapes, uris with up to 20 characters
before the first escape, letters of two and three bytes, and halves of units and of pairs. by_hand/requests.py made the file.

Every block is given back by the end, whichever request is refused. Valgrind counts no block and no wrong access at the end of
each worked row, and how many bytes a session of it requests in all, which are at most 8 KB and 8 bytes for each of the input.
Needs a C compiler; valgrind is skipped, and that is said, if there is none.
"""

import os
import re
import shutil
import subprocess
import sys
import tempfile
from concurrent.futures import ThreadPoolExecutor

sys.path.insert(0, os.path.join(os.path.dirname(os.path.abspath(__file__)), "lib"))
sys.dont_write_bytecode = True
from worked import Session, build_refuser, is_utf8, rows, run_counted, run_told, takes_no_memory

REQUESTS = os.path.join(os.path.dirname(os.path.abspath(__file__)), "requests.txt")
WANTED = "FAULT memory"
VALGRIND = ["valgrind", "--leak-check=full", "--error-exitcode=99"]
NOTHING_HELD = re.compile(rb"in use at exit: 0 bytes in 0 blocks\n")
REQUESTED = re.compile(rb"total heap usage: .* frees, ([\d,]+) bytes allocated\n")
MOST_BYTES, MOST_FOR_A_BYTE = 8192, 8
BARE = {"STREAM_END", "DOCUMENT_START", "DOCUMENT_END", "FLOW_SEQUENCE_START", "FLOW_MAPPING_START", "FLOW_SEQUENCE_END",
        "FLOW_MAPPING_END", "FLOW_ENTRY", "BLOCK_ENTRY", "KEY", "VALUE"}


def sessions():
    """The words of calls that are made one by one, the input, and the lines of a scan of it."""
    for words, data, lines in rows():
        if words[0] == "scan":
            limit = words[2] if len(words) > 2 else "1024"
            for word in ("k" + "s" * (len(lines) + 2) + "psk", "k" + "ppks" * len(lines) + "pps", "kpps" * len(lines) + "ksp"):
                yield ["each", words[1], limit, word], data, lines


def calls_without_memory(words, data, lines, done, counts):
    """How many calls were made that take no memory, and the requests that they made; then those of all others.

    A new parser counts with the first call, which is a skip. What reads the state counts as a call.
    """
    text = done.stdout.decode("ascii").splitlines()
    answers = [line.startswith(WANTED) for line in text[::2]]
    session = Session(lines, answers.index(True) if True in answers else None)
    bare, wrong, others = len(counts) - len(words[3]), sum(counts[1::2]) + counts[-1], 0
    for letter, count in zip(words[3], counts[:-1:2], strict=True):
        if session.may_want_memory(letter) and not takes_no_memory(words, data, lines):
            others += count
        else:
            bare += 1
            wrong += count
        session.call(letter)
    return bare, wrong, others


def count_each(testbench, refuser, words, data, lines):
    """Refuses no request, then each in turn. Sums what was counted, and runs, and those that are wrong."""
    number, more, total = 0, 1, [0, 0, 0, 0, 0]
    while number <= more:
        done, counts, held = run_counted(testbench, words, data, refuser, number, after_reading=True)
        found = calls_without_memory(words, data, lines, done, counts)
        more = sum(counts) if number == 0 else more
        is_wrong = bool(found[1] or held or done.returncode or done.stderr)
        if is_wrong:
            print(f"{words}, {data[:80]!r}, {number}: {counts}, {held} blocks, {done.stdout[-300:]!r}, {done.stderr!r}")
        total = [a + b for a, b in zip(total, (*found, 1, is_wrong))]
        number += 1
    return total


def count_bare(testbench, refuser):
    """Counts the requests of decoding of UTF-8 and of the calls at each place of a text: lines, wrong ones, kinds seen."""
    lines, wrong, kinds = 0, 0, set()
    for setting, data in sorted({(words[1], data) for words, data, _ in rows() if is_utf8(words[1], data)}):
        for command in "bare", "decode":
            done, counts, held = run_counted(testbench, [command, setting], data, refuser, 0, after_reading=True)
            places = [line.split(" ") for line in done.stdout.decode("ascii", "replace").splitlines() if line.startswith("PLACE")]
            kinds |= {words[at] for words in places for at in (5, 10)}
            lines += len(places) if command == "bare" else 1
            if any(counts) or held or done.returncode or done.stderr or not done.stdout:
                wrong += 1
                print(f"{command} {setting}, {data[:80]!r}: {counts}, {held} blocks, {done.stderr!r}")
    return lines, wrong, kinds


def few_rows():
    """The inputs of requests.txt: the words of a command, the input, and the most requests and bytes of one."""
    with open(REQUESTS, encoding="ascii") as lines:
        for line in lines:
            words, data, requests, most = line.rstrip("\n").split("\t")
            yield words.split(" "), bytes.fromhex(data), int(requests), float("inf") if most == "-" else int(most)


def is_few(testbench, refuser, words, data, requests, most):
    """Whether no more requests are made than may be, and none for more bytes.

    A list of bytes that has no room for what is put in asks for twice the bytes that it has room for, for those that it needs
    if these are more, and for 8 at least. So the bytes of a request are not those of the text, but go up in steps. Where the
    steps are depends on how much room the list had at first: if it begins with none they are 8, 16, 32 and so on, and if it
    begins with 17 bytes, which are in use, the next is 34. Each length has a row of its own, which says what was asked for
    at that length, so a list that begins otherwise may be above it at some lengths.
    """
    done, counts, held, greatest = run_told(testbench, words, data, refuser, 0, after_reading=True)
    is_whole = not held and not done.stderr and not done.returncode
    is_right = is_whole and sum(counts) <= requests and greatest <= most
    if not is_right:
        print(f"{words}, {data[:80]!r}: {sum(counts)} requests, the greatest for {greatest} bytes, where {requests} and {most} "
              f"are the most; {held} blocks, {done.stderr!r}")
    return is_right


def blocks_of(command):
    """Whether valgrind counts no block at a program's end, and no wrong access, and how many bytes were requested."""
    words, data = command
    done = subprocess.run([*VALGRIND, *words], input=data, capture_output=True, timeout=300)
    requested = REQUESTED.search(done.stderr)
    freed = done.returncode < 2 and NOTHING_HELD.search(done.stderr) is not None
    return freed and requested is not None, int(requested[1].replace(b",", b"")) if requested else 0


def count_blocks(program, testbench):
    """Runs each worked row, and its session, under valgrind: how many were run, how many are wrong, and how many of the
    sessions request more bytes than they may.
    """
    listings = [([program, *words], data) for words, data, _ in rows()]
    asked = [([testbench, *words], data) for words, data, _ in list(sessions())[::3]]
    commands, wrong, more = [*listings, *asked], 0, 0
    with ThreadPoolExecutor(max_workers=os.cpu_count()) as pool:
        for number, (command, (freed, requested)) in enumerate(zip(commands, pool.map(blocks_of, commands))):
            words, data = command
            is_more = number >= len(listings) and requested > MOST_BYTES + MOST_FOR_A_BYTE * len(data)
            if not freed or is_more:
                print(f"{words[1:]}, {data[:80]!r}: blocks are left, a wrong access, or {requested} bytes are too many")
            wrong, more = wrong + (not freed), more + is_more
    return len(commands), wrong, more


def main(program):
    testbench = os.path.join(os.path.dirname(program), "..", "..", "testbench", "out", "testbench")
    every, total = list(sessions()), [0, 0, 0, 0, 0]
    with tempfile.TemporaryDirectory() as room:
        refuser = build_refuser(room)
        with ThreadPoolExecutor(max_workers=os.cpu_count()) as pool:
            for found in pool.map(lambda one: count_each(testbench, refuser, *one), every):
                total = [a + b for a, b in zip(total, found)]
            few = list(pool.map(lambda row: is_few(testbench, refuser, *row), few_rows()))
        places, places_wrong, kinds = count_bare(testbench, refuser)
    bare, requests, others, runs, wrong = total
    print(f"counts: {len(every)} lists of calls, {runs} runs, {bare} calls that take no memory made {requests} requests, "
          f"the others {others}, {wrong} runs wrong")
    print(f"counts: {places} places and decodings of UTF-8, {len(BARE & kinds)} kinds that take no memory, {places_wrong} wrong")
    print(f"counts: {len(few)} commands on tags and UTF-16, {few.count(False)} request more than they may")
    is_wrong = wrong or requests or places_wrong or not bare or not others or not BARE <= kinds or not all(few) or not few
    if shutil.which("valgrind") is None:
        print("counts: blocks are not counted: no valgrind")
        return 1 if is_wrong else 0
    commands, held, more = count_blocks(program, testbench)
    print(f"counts: {commands} runs under valgrind, {held} with blocks that are not freed or a wrong access, {more} sessions "
          "that request too many bytes")
    return 1 if is_wrong or held or more else 0


if __name__ == "__main__":
    from lib.usage import given_program

    sys.exit(main(given_program()))
