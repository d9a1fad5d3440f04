#!/usr/bin/env python3
"""Refuses each request for memory in turn inside the calls of the library: sessions.py PROGRAM.

The program testbench, which is beside the given one, makes the calls.

For each input of the worked rows of vectors/rows.txt, and of those that say how many steps are queued, `yaml_run` is called
twice on one parser, `yaml_scan_all_limit` once, and scan, peek and skip one by one. After the input is read only these calls
take memory. With ample memory nothing is refused. If a request is refused, it is answered: if `yaml_run` is refused room for
its answers, the answers and the session are as before, and the next call returns what it would without that; if
`yaml_scan_all_limit` is refused room for its list, there is none. Otherwise the answers are those up to some call, one fault of
kind memory and idle ones; then no token is peeked, the fault is shown, and at most limit + 1 steps are queued. With all
requests refused UTF-8 is decoded, and the reader's fault comes if the first step is near. Needs a C compiler.
"""

import os
import sys
import tempfile
from concurrent.futures import ThreadPoolExecutor

sys.path.insert(0, os.path.join(os.path.dirname(os.path.abspath(__file__)), "lib"))
sys.dont_write_bytecode = True
from worked import MEMORY, Session, build_refuser, is_ended, is_utf8, rows, run, run_counted, scans, session_of, takes_no_memory

STYLES = dict(plain="PLAIN", single="SINGLE_QUOTED", double="DOUBLE_QUOTED", literal="LITERAL", folded="FOLDED")
ZERO = "0:0:0"
NEW = f"STATE false 0 {ZERO} -"
WANTED = f"FAULT memory 0 0 {ZERO} {ZERO} -; -"


def line_of(line):
    """A line of the program's listing as testbench writes it."""
    kind, _, rest = line.partition(" ")
    if line == MEMORY:
        return WANTED
    if kind == "FAULT":
        words = rest.split(" ", 3)
        if words[0] == "reader":
            return f"FAULT reader {words[1]} {words[2]} {ZERO} {ZERO} -; {words[3]}"
        return f"FAULT scanner 0 0 {words[1]} {words[2]} {words[3]}"
    if kind == "SKIP":
        return "NOTHING" if rest else "SKIPPED"
    if kind == "PEEK":
        return "PEEKED " + line_of(rest).removeprefix("TOKEN ")
    start, end, *data = rest.split(" ") if rest else (ZERO, ZERO)
    if kind == "STREAM-START" and data:
        data = [f"YAML_{data[0]}_ENCODING"]
    elif kind == "SCALAR" and data:
        data = [f"YAML_{STYLES[data[0]]}_SCALAR_STYLE", data[1]]
    return " ".join([f"TOKEN YAML_{kind.removesuffix('-TOKEN').replace('-', '_')}_TOKEN", start, end, *data])


def asked(rows_of_scans):
    """The words for testbench, the input, and the row's lines."""
    for words, data, lines in rows_of_scans:
        limit = words[2] if len(words) > 2 else "1024"
        scans, peeks = "s" * (len(lines) + 2), "pk" * (len(lines) + 1)
        runs = [["calls", scans, "psk"], ["calls", peeks, "psk"], ["calls", scans[:3] + "p", scans]]
        for more in (*runs, ["all"], ["each", scans], ["each", peeks + "s"]):
            yield [more[0], words[1], limit, *more[1:]], data, lines


def session_is(state, session, limit):
    """Whether a line says what the session is: whether a token was peeked, the fault, and few queued steps."""
    _, has_token, queued, _, fault = state.split(" ", 4)
    shown = line_of(session.shown) if session.shown else "-"
    return has_token == str(session.peeked).lower() and int(queued) <= limit + 1 and fault == shown


def blocks(text):
    """The parts after each ANSWERED or REFUSED: that word, the answers after the first one, and the state."""
    for part in text.replace("REFUSED\n", "\0REFUSED\n").replace("ANSWERED\n", "\0ANSWERED\n").split("\0")[1:]:
        word, first, *answers, state = part.splitlines()
        yield word, answers if first == "NOTHING" else None, state


def judge_runs(lines, words, text, may_refuse):
    """Judges the calls of `yaml_run`: whether one was refused, or returned a memory fault; None if something is wrong."""
    limit, made, before, seen = int(words[2]), "", ([], NEW), set()
    found = list(blocks(text))
    if len(found) != len(words) - 3:
        return None
    backwards = {line_of(line): line for line in every_answer(lines)}
    for word, (answered, answers, state) in zip(words[3:], found):
        if answered == "REFUSED":
            seen.add("refused")
            if (answers, state) != before:
                return None
            continue
        made += word
        session = session_of(lines, made, [backwards.get(line) for line in answers or []], may_refuse)
        if session is None or not session_is(state, session, limit):
            return None
        seen.add("wanted" if session.shown == MEMORY else "whole")
        before = answers, state
    return "refused" if "refused" in seen else "wanted" if "wanted" in seen else "whole"


def every_answer(lines):
    """All possible answers to calls on this row."""
    scans, peeks = "s" * (len(lines) + 2), "pk" * (len(lines) + 1)
    return [MEMORY, *lines, *Session(lines).calls(scans + "k"), *Session(lines).calls(peeks)]


def judge_each(lines, words, text, may_refuse):
    """Judges calls that are made one by one, and the state after each."""
    backwards = {line_of(line): line for line in every_answer(lines)}
    backwards |= {"PEEKED " + line_of(line): "PEEK " + " ".join(line.split(" ")[:3]) for line in lines}
    backwards["PEEKED " + line_of("NO-TOKEN")] = "PEEK NO-TOKEN"
    said = text.splitlines()
    found = [backwards.get(line) for line in said[::2]]
    session = session_of(lines, words[3], found, may_refuse)
    if session is None:
        return None
    again = Session(lines, found.index(MEMORY) if MEMORY in found else None)
    for letter, state in zip(words[3], said[1::2], strict=True):
        again.call(letter)
        if not session_is(state, again, int(words[2])):
            return None
    return "wanted" if session.shown == MEMORY else "whole"


def judge_all(lines, text, may_refuse):
    """Judges all tokens and the fault, by one call."""
    if text == "REFUSED\n":
        return "refused"
    first, *found = text.splitlines()
    wanted = [line_of(line) for line in lines]
    if first != "ANSWERED" or found == wanted:
        return "whole" if first == "ANSWERED" else None
    front = found[:-1]
    is_beginning = found[-1:] == [WANTED] and front == wanted[: len(front)]
    return "wanted" if may_refuse and is_beginning and not any(map(is_ended, lines[: len(front)])) else None


def judge(words, data, lines, done):
    text = done.stdout.decode("ascii")
    may_refuse = not takes_no_memory(words, data, lines)
    if done.returncode or done.stderr or not text:
        return None
    if words[0] == "all":
        return judge_all(lines, text, may_refuse)
    return (judge_runs if words[0] == "calls" else judge_each)(lines, words, text, may_refuse)


def refuse_each(testbench, refuser, words, data, lines):
    """Refuses no request after the input was read, then each in turn, then one that is not made.

    A refused request is answered, so only the first run and the last are whole.
    """
    seen, number, requests = {}, 0, 0
    while number <= requests + 1:
        done, counts, held = run_counted(testbench, words, data, refuser, number, after_reading=True)
        requests = sum(counts) if number == 0 else requests
        kind = judge(words, data, lines, done)
        if held or (kind == "whole") != (number in (0, requests + 1)):
            kind = None
        if kind is None:
            print(f"{words[:3]}, {data[:80]!r}, {number}: {done.returncode}, {done.stdout[-600:]!r}, {done.stderr!r}, {held} blocks")
        seen[kind] = seen.get(kind, 0) + 1
        number += 1
    return seen


def without_memory(testbench, refuser):
    """UTF-8 with every request refused: decoding, and a scan and a peek if the reader's fault is early."""
    count = wrong = 0
    for words, data, lines in rows():
        is_read = lines and lines[-1].startswith("FAULT reader")
        # if a scanner fault comes first, the row does not have the reader's fault
        is_late = data.endswith(b"\xff") and not is_read
        if words[0] != "scan" or not is_utf8(words[1], data) or is_late:
            continue
        mark = data.startswith(b"\xef\xbb\xbf") and words[1] == "any"
        text = b"TEXT YAML_UTF8_ENCODING " + data[3 if mark else 0 :] + b"\n"
        wanted = [(["decode", words[1]], line_of(lines[-1]).encode() + b"\n" if is_read else text)]
        if is_read and len(lines) == 1:
            fault = line_of(lines[0])
            state = f"STATE false 0 {ZERO} {fault}\n"
            idle = f"TOKEN YAML_NO_TOKEN {ZERO} {ZERO}\n"
            wanted.append((["each", words[1], "1024", "ss"], (fault + "\n" + state + idle + state).encode()))
            wanted.append((["each", words[1], "1024", "ps"], (fault + "\n" + state + idle + state).encode()))
        for ask, want in wanted:
            done = run(testbench, ask, data, refuser, "1-", after_reading=True)
            count += 1
            if (done.stdout, done.stderr, done.returncode) != (want, b"", 0):
                wrong += 1
                print(f"{ask}, {data[:80]!r}, no memory: wanted {want!r}, got {done.stdout!r}, {done.stderr!r}")
    return count, wrong


def main(program):
    testbench = os.path.join(os.path.dirname(program), "..", "..", "testbench", "out", "testbench")
    every = list(asked(scans()))
    total = {"whole": 0, "refused": 0, "wanted": 0, None: 0}
    with tempfile.TemporaryDirectory() as room:
        refuser = build_refuser(room)
        with ThreadPoolExecutor(max_workers=os.cpu_count()) as pool:
            for seen in pool.map(lambda one: refuse_each(testbench, refuser, *one), every):
                for kind, count in seen.items():
                    total[kind] += count
        bare, bare_wrong = without_memory(testbench, refuser)
    wrong = total.pop(None)
    counts = ", ".join(f"{count} {kind}" for kind, count in total.items())
    print(f"sessions: {len(every)} lists of calls, {counts}, {wrong} wrong")
    print(f"sessions: {bare} without any memory, {bare_wrong} wrong")
    return 1 if wrong or bare_wrong or not bare or not all(total.values()) else 0


if __name__ == "__main__":
    from lib.usage import given_program

    sys.exit(main(given_program()))
