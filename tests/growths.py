#!/usr/bin/env python3
"""Refuses each request for memory in turn while the program runs: growths.py PROGRAM.

For each worked row of vectors/rows.txt its own command, and for each input of these rows, and of those that say how many steps
are queued, a scan; the same for the inputs below; for all of these, lists of scans past the end, and of peeks with skips past
the end, unless there is a key limit, which lists of calls have not in this program (sessions.py has them). The inputs below are
100 entries, and small ones with one step of each kind that takes memory, outside of flow and in flow. The first request is
refused, then the second, and so on up to the last. The same for the deep rows, of 100,000 bytes, of which only some six
requests of each command are refused.

Each request that is made after the input and the calls were read is answered: the program is out of memory and has written
nothing, or its lines are a beginning of those with ample memory, then the one fault of kind memory, and then, for a list of
calls, one line for each call that is left. The fault comes only at a scan or a peek of a token that was not peeked, never after
the stream end, and never if no memory is taken: if UTF-8 is decoded, or refused so early that the first step is near. If a
request that comes before is refused, the lines may also be those with ample memory, since the standard library collects a list
in that way. All blocks are given back.

Then the program testbench, which is beside the given one, makes calls one by one: scans on the 100 entries and on the rows that
say how many steps are queued, which are compared, and scans, peeks and skips on the small inputs, in UTF-8 and UTF-16. Each
request that is refused in a call is answered by that call's fault, so nothing asks twice for the same memory. The answers
before it are those with ample memory; after it come empty tokens. On the 100 entries more than 100 requests are answered so,
and fewer than 100 of these faults come before the tenth token, so tokens are handed out while memory is still to be requested.

At last testbench gives the tokens of the small inputs, and of those of which most scalars are lent, to sinks: all by one call,
in batches, and with the input in pieces, with sinks of several rooms. With ample memory they are those of scans. Each request
that is refused is answered by the fault after some of the first of these tokens, never after all of them.
Needs a C compiler.
"""

import os
import subprocess
import sys
import tempfile
from concurrent.futures import ThreadPoolExecutor

sys.path.insert(0, os.path.join(os.path.dirname(os.path.abspath(__file__)), "lib"))
sys.dont_write_bytecode = True
from worked import DEEP_ROWS, MEMORY, QUEUES, Session, build_refuser, is_ended, queued, rows, run_counted, scans, session_of
from worked import takes_no_memory

HUNDRED = b"- x\n" * 100
ZERO = "0:0:0"
DEEP_RUNS = 6  # so many requests of a command on a deep row are refused
MOST_CALLS = 100_000  # so many calls are a word that a process may be given
MOST_TOKENS = 60  # that a small input has
WANTED = f"FAULT memory 0 0 {ZERO} {ZERO} -; -"
# the answers of testbench to calls after a fault
IDLE = {"s": f"TOKEN YAML_NO_TOKEN {ZERO} {ZERO}", "p": f"PEEKED TOKEN YAML_NO_TOKEN {ZERO} {ZERO}", "k": "NOTHING"}

# Steps of each kind of lexeme that takes memory, outside of flow and in flow, and of those that grow what the scanner keeps.
STEPS = [
    b'["abc"]', b'"abc"', b"- 'it''s'\n", b"{'it''s': 'a\n\n b'}", b'"a\\tb"\n', b'["a\\\n  b", "\\x41"]', b"a b\n c\n", b"[a\n b]",
    b"|\n  a\n  b\n", b"- |\n  a\n  b\n", b"- >\n  a\n  b\n", b"- >+2\n    a\n\n  b\n\n", b"%TAG ! tag:e,2000:\n--- a\n",
    b"%YAML 1.1\n--- a\n", b"key: value\n", b'"key": value\n', b"{key: value, k: [v]}", b'{"key": "value"}', b"? key\n: value\n",
    b"[? key : value]", b"- &a !t x\n- *a\n", b"*a : &b c\n", b"[!<tag:e> a, !e!%41 b]", b"[[[[a]]]]", b"a\n b\n  c\n", b"a:\n b:\n  c:\n   - d\n",
    b'- "' + b"long " * 40 + b'\\n"\n', b"- " + b"long\n  " * 40,
]

# Texts of which most scalars are lent, outside of flow and in flow. What takes memory is between these: names, escapes, literal
# scalars and scalars of two lines, starts of collections, and documents.
LENT = [
    b'a: b\nc: *d\n"e": "f\\n"\ng: |\n  h\ni: &j \'k\'\nl:\n  m: n\n', b'- a\n- b: c\n  d: &e f\n-\n  - "g\\t"\n  - h: i\n',
    b'--- {a: b, "c": \'d\', &e f: "g\\n", h}\n--- [i, *j , k: l, "m\n n", o]\n',
    b'{\n  "a": "b",\n  "c": [\n    1, &d 2, "e\\t",\n    3\n  ]\n}\n', b"a: [b, c: {d: !e f}, g]\nh: {i: j, k: [*l , m]}\n",
]
# For how many tokens, and bytes of their texts, a sink has room: for all of them, at each call for some, or for none.
ROOMS = [["-", "-"], ["8", "100"], ["5", "2"], ["1", "1"], ["0", "0"]]
# for how many tokens a sink has room, and how many bytes a piece has
PIECES = [["1", "1"], ["5", "3"], ["40", "16"]]


def scanned(program, data):
    """The words for a scan of an input in any encoding, the input, and the lines of the scan."""
    words = ["scan", "any"]
    done = subprocess.run([program, *words], input=data, capture_output=True, timeout=60)
    return words, data, done.stdout.decode("ascii").splitlines()


def lists_of_calls(setting, count):
    """Scans past the end of so many lines, and peeks with skips past it."""
    yield ["calls", setting, "s" * min(count + 2, MOST_CALLS) + "psk"]
    yield ["calls", setting, "pk" * min(count + 1, MOST_CALLS // 2) + "pps"]


def other_rows():
    """The rows that decode or make calls: the words, the input, and the lines of its decoding, or of a scan of it."""
    scanned = {(words[1], data): lines for words, data, lines in scans() if len(words) == 2}
    for words, data, lines in rows():
        if words[0] == "calls":
            whole = scanned[words[1], data]
            if Session(whole).calls(words[2]) != lines:
                raise SystemExit(f"growths: {words}, {data!r}: the row's lines are not those that follow from a scan")
            yield words, data, whole
        elif words[0] == "decode":
            yield words, data, lines


def commands(program):
    """What is run: the words, the input, and the lines of a scan of it, or of its decoding."""
    yield from other_rows()
    for words, data, lines in [*scans(), *(scanned(program, data) for data in [HUNDRED, *STEPS])]:
        yield words, data, lines
        if len(words) == 2:
            for word in lists_of_calls(words[1], len(lines)):
                yield word, data, lines


def deep_commands(program):
    """The same of the deep rows."""
    for data in DEEP_ROWS:
        words, data, lines = scanned(program, data)
        for command in [words, *lists_of_calls("any", len(lines))]:
            yield command, data, lines


def kind_of(words, done, data, lines):
    """What a run has done: `whole`, `nothing` or `beginning`, or None if it is wrong."""
    found = done.stdout.decode("ascii").splitlines()
    if (done.stdout, done.returncode, done.stderr) == (b"", 3, b"yamltok: out of memory\n"):
        return "nothing"
    if done.stderr or done.returncode != any(line.startswith("FAULT") for line in found):
        return None
    may_refuse = not takes_no_memory(words, data, lines)
    if words[0] == "calls":
        if not session_of(lines, words[2], found, may_refuse):
            return None
        return "whole" if MEMORY not in found else "beginning"
    if found == lines:
        return "whole"
    front = found[:-1]
    is_beginning = found[-1:] == [MEMORY] and front == lines[: len(front)] and not any(map(is_ended, front))
    return "beginning" if may_refuse and is_beginning else None


def refuse_each(program, refuser, words, data, lines, runs=None):
    """Refuses none, then each request that is made then, in turn; returns what was seen. With a number of runs about so many
    of the requests are refused, and none that comes before the input's end: how many those are depends on the pipe.

    A request that comes before the input's end is read may be made again, and so may the first one after that if calls
    are listed: collecting the words, and the calls, asks for the room of all at once and then for less.
    """
    after_read = sum(run_counted(program, words, data, refuser, 0, after_reading=True)[1])
    seen, number, requests = {}, 0, after_read
    while number <= requests:
        done, counts, held = run_counted(program, words, data, refuser, number, after_reading=runs is not None)
        kind = None if held else kind_of(words, done, data, lines)
        if number == 0:
            requests = sum(counts)
        may_be_whole = number <= requests - after_read + (words[0] == "calls")
        if kind == "whole" and not may_be_whole or number == 0 and kind != "whole":
            kind = None
        if kind is None:
            told = [word[:80] for word in words]
            print(f"{told}, {data[:80]!r}, {number}: {done.returncode}, {done.stdout[-300:]!r}, {done.stderr!r}, {held} blocks")
        seen[kind] = seen.get(kind, 0) + 1
        number += max(1, requests // runs) if runs else 1
    return seen


def is_refused_at(word, at, whole, found):
    """Whether the lines are those with ample memory up to a call, then its fault of kind memory and idle answers."""
    wanted = [WANTED, *(IDLE[letter] for letter in word[at + 1 :])]
    states = found[2 * at + 1 :: 2]
    is_over = all(state.startswith("STATE false ") and state.endswith(f" {WANTED}") for state in states)
    return len(found) == len(whole) and found[: 2 * at] == whole[: 2 * at] and found[2 * at :: 2] == wanted and is_over


def faults_of(testbench, refuser, setting, data, word, limit=1024):
    """Refuses each request of a list of calls in turn. Returns how many tokens come before the fault, for each.

    None if one is not answered by the fault of the call in which it is made.
    """
    words = ["each", setting, str(limit), word]
    done, counts, held = run_counted(testbench, words, data, refuser, 0, after_reading=True)
    whole, before, is_right = done.stdout.decode("ascii").splitlines(), [], not held and not done.stderr
    calls = [at for at, count in enumerate(counts[:-1:2]) for _ in range(count)]
    for number, at in enumerate(calls, 1):
        done, _, held = run_counted(testbench, words, data, refuser, number, after_reading=True)
        found = done.stdout.decode("ascii").splitlines()
        if held or done.stderr or not is_refused_at(word, at, whole, found):
            print(f"{words}, {data[:80]!r}, {number}, call {at}: {done.stdout[-300:]!r}, {done.stderr!r}, {held} blocks")
            is_right = False
        before.append(sum(line.startswith("TOKEN YAML") for line in found[: 2 * at : 2]))
    return before if is_right and len(calls) == sum(counts) else None


def queue_faults(testbench, refuser, row):
    """How many requests are refused of a row that says how many steps are queued; None if one is not answered, or the row is not."""
    data, limit, word, counts = row
    found = faults_of(testbench, refuser, "any", data, word, limit)
    return None if found is None or queued(testbench, data, limit, word) != counts else len(found)


def steps():
    """The setting, the input and the calls for each small input: scans past its end, and peeks with skips."""
    for data in STEPS:
        for setting, codec in ("utf8", "utf-8"), ("utf16le", "utf-16-le"):
            for word in "s" * 40, "pkppks" * 10:
                yield setting, data.decode("ascii").encode(codec), word


def handed_out(done):
    """The tokens that a sink was given and those that were returned, and the fault, in order, up to the end of the session."""
    for line in done.stdout.decode("ascii").splitlines():
        told = line.split(" ", 1)[1] if line.startswith(("GIVEN ", "RETURNED ")) else line
        if told != IDLE["s"] and not told.startswith(("STATE ", "ENDED")):
            yield told


def sink_faults(testbench, refuser, words, data):
    """Refuses each request in turn while tokens go to sinks. Returns how many tokens come before the fault, for each.

    None if one is not answered by the fault after some of the tokens that scans give.
    """
    whole = list(handed_out(run_counted(testbench, ["each", *words[1:3], "s" * MOST_TOKENS], data, refuser, 0)[0]))
    done, counts, held = run_counted(testbench, words, data, refuser, 0, after_reading=True)
    before, is_right = [], list(handed_out(done)) == whole and not held and not done.stderr
    for number in range(1, sum(counts) + 1):
        done, _, held = run_counted(testbench, words, data, refuser, number, after_reading=True)
        *tokens, fault = [*handed_out(done)] or [None]
        if held or done.stderr or fault != WANTED or tokens != whole[:-1][: len(tokens)]:
            print(f"{words}, {data[:80]!r}, {number}: {done.stdout[-300:]!r}, {done.stderr!r}, {held} blocks")
            is_right = False
        before.append(len(tokens))
    return before if is_right else None


def sinks():
    """The words and the input for each small input, and each room of a sink, or each size of pieces."""
    for data in [*STEPS, *LENT]:
        for setting, codec in ("utf8", "utf-8"), ("utf16le", "utf-16-le"):
            for command in "to", "batches":
                for room in ROOMS:
                    yield [command, setting, "1024", *room], data.decode("ascii").encode(codec)
            for pieces in PIECES:
                yield ["pieces", setting, "1024", *pieces], data.decode("ascii").encode(codec)


def main(program):
    every, deep, small = list(commands(program)), list(deep_commands(program)), list(steps())
    testbench = os.path.join(os.path.dirname(program), "..", "..", "testbench", "out", "testbench")
    with tempfile.TemporaryDirectory() as room:
        refuser = build_refuser(room)
        total = {"whole": 0, "beginning": 0, "nothing": 0, None: 0}
        with ThreadPoolExecutor(max_workers=os.cpu_count()) as pool:
            found = list(pool.map(lambda one: refuse_each(program, refuser, *one), every))
            found += pool.map(lambda one: refuse_each(program, refuser, *one, DEEP_RUNS), deep)
            for kind, count in [pair for seen in found for pair in seen.items()]:
                total[kind] += count
            hundred = faults_of(testbench, refuser, "any", HUNDRED, "s" * 310)
            queues = list(pool.map(lambda row: queue_faults(testbench, refuser, row), QUEUES))
            found = list(pool.map(lambda one: faults_of(testbench, refuser, *one), small))
            given = list(pool.map(lambda one: sink_faults(testbench, refuser, *one), sinks()))
    wrong = total.pop(None)
    counts = ", ".join(f"{count} {kind}" for kind, count in total.items())
    print(f"growths: {len(every)} commands and {len(deep)} on deep rows, {counts}, {wrong} wrong")
    unanswered = sum(one is None for one in [hundred, *found])
    faults, early = len(hundred or []), sum(tokens < 10 for tokens in hundred or [])
    print(f"growths: 100 entries, {faults} faults of kind memory, {early} of them before the tenth token")
    print(f"growths: {len(QUEUES)} rows with queued steps, {sum(filter(None, queues))} faults, {queues.count(None)} not answered")
    print(f"growths: {len(STEPS)} small inputs, {sum(len(one or []) for one in found)} faults, {unanswered} lists of calls not answered")
    print(f"growths: {len(given)} times to sinks, {sum(len(one or []) for one in given)} faults, {given.count(None)} not answered")
    is_wrong = wrong or unanswered or None in given or not all(queues) or not all(total.values()) or faults <= 100 or early >= 100
    return 1 if is_wrong or any(len(one or []) < 2 for one in found) else 0


if __name__ == "__main__":
    from lib.usage import given_program

    sys.exit(main(given_program()))
